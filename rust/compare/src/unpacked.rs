//! The wrapper's unpacked answers against the paper's own types.

use crate::lists::ticks_not_rising;
use crate::orders;
use crate::random::Random;
use crate::random_lists::RandomLists;
use crate::random_plans::any_or_extreme_orders;
use crate::random_texts;
use crate::reduce::{Counted, Failure};
use crate::sides::{Sides, Typed};
use crate::states::{self, Numbers};
use crate::words::Words;
use paper::{IrCallerBits, Refusal};
use shabgozim::{place, Act, Cause, CoverMove, Outcome, State, Task, Ticked};
use shabgozim::{CcdInputs, Inspection, IrInputs, ListRefusal, ListTextRefusal, PlanRefusal};
use shabgozim::{Schedule, TextList, Translation, MOST_WORDS};
use std::fmt::Debug;

/// Every sort of answer, from states of every sort.
pub fn answers(sides: &Sides, random: &mut Random, times: u32) -> Counted {
    let paper = &sides.typed;
    let words = Words::new();
    let mut count = 0;
    for _ in 0..200_000 * times {
        let state = states::any(random);
        let word = words.likely(random, state[place::SET_WORDS]);
        count += step(paper, &state, word)?;
        count += ir_block(paper, random, &state)?;
        count += ccd_block(paper, random, &state)?;
    }
    for _ in 0..20_000 * times {
        let state = states::idle(random);
        let mut plan = orders::plan(&any_or_extreme_orders(random));
        let at = random.below(plan.len());
        plan[at] ^= random.byte() & random.byte() & random.byte();
        count += translation(paper, &state, &plan, random.below(300))?;
        count += schedule(paper, &state, &plan)?;
        if random.once_in(8) {
            count += report(paper, &states::in_range(random), &plan)?;
        }
    }
    let lists = RandomLists::new();
    for _ in 0..20_000 * times {
        let state = states::any(random);
        let mut list = lists.any_from(random, &state);
        if random.once_in(4) {
            ticks_not_rising(random, &mut list.ticks);
        }
        count += timed_words(paper, &state, &list.words, &list.ticks)?;
        let mut text = random_texts::text(random, &list.words, &list.ticks);
        if random.once_in(2) {
            random_texts::damage(random, &mut text);
        }
        count += read_list(paper, &text)?;
        if random.once_in(32) {
            count += inspection(paper, &list.words, &list.ticks)?;
        }
    }
    Ok(count)
}

fn same<T: PartialEq + Debug>(state: &Numbers, found: T, expected: T) -> Counted {
    if found == expected {
        return Ok(1);
    }
    let state = states::describe(state);
    let text = format!("unpacked, from {state}\nlibrary {found:?}\npaper {expected:?}");
    Err(Failure(text))
}

/// A word and a tick.
fn step(paper: &Typed, state: &Numbers, word: u16) -> Counted {
    let mut head = State { numbers: *state };
    let mut expected = paper::State::from_array(state);
    let mut count = same(state, head.in_range(), (paper.in_range)(&expected))?;
    let outcome = head.word(word);
    count += same(
        state,
        outcome,
        outcome_of((paper.receive)(&mut expected, word)),
    )?;
    let ticked = head.tick();
    count += same(state, ticked, ticked_of((paper.tick)(&mut expected)))?;
    count += same(state, head.numbers, expected.to_array())?;
    Ok(count)
}

fn outcome_of(outcome: paper::Outcome) -> Outcome {
    match outcome {
        paper::Outcome::Taken(act) => Outcome::Taken(act_of(act)),
        paper::Outcome::Ignored(cause) => Outcome::Ignored(match cause {
            paper::Cause::StateOutOfRange => Cause::StateOutOfRange,
            paper::Cause::WrongTime => Cause::WrongTime,
            paper::Cause::UnknownIdentifier => Cause::UnknownIdentifier,
            paper::Cause::DataOutOfRange => Cause::DataOutOfRange,
            paper::Cause::OutOfTurn => Cause::OutOfTurn,
        }),
    }
}

fn act_of(act: paper::Act) -> Act {
    match act {
        paper::Act::None => Act::None,
        paper::Act::Exposure => Act::Exposure,
        paper::Act::Housekeeping => Act::Housekeeping,
        paper::Act::Cover(data) => {
            let cover = paper::CoverMove::from_data(data);
            Act::Cover(CoverMove {
                opens: cover.direction == 1,
                wave: cover.wave == 1,
                sensors: cover.sensors == 1,
                steps: cover.steps,
            })
        }
    }
}

/// A list in one call.
fn timed_words(paper: &Typed, state: &Numbers, words: &[u16], ticks: &[u32]) -> Counted {
    let timed: Vec<(u32, u16)> = ticks.iter().copied().zip(words.iter().copied()).collect();
    let mut head = State { numbers: *state };
    let found = head.list(&timed);
    let found = found.map(|outcomes| outcomes.into_iter().map(number_of).collect());
    let mut expected = paper::State::from_array(state);
    let mut outcomes = vec![0; words.len()];
    let answer = (paper.list)(&mut expected, words, ticks, &mut outcomes);
    let answer = match answer as u8 {
        0 => Ok(outcomes),
        number => Err(number),
    };
    let mut count = same(state, found.map_err(ListRefusal::number), answer)?;
    count += same(state, head.numbers, expected.to_array())?;
    Ok(count)
}

/// A list read from text, or the refusal and its words.
fn read_list(paper: &Typed, text: &[u8]) -> Counted {
    let found = shabgozim::read_list(text);
    let found = found.map_err(|refusal| (refusal, refusal.in_words()));
    let expected = (paper.read_list)(text).map(|list| TextList {
        words: list.words,
        ticks: list.ticks,
    });
    let expected = expected.map_err(|refusal| {
        let (number, line) = (refusal.number as u8, refusal.line as u32);
        (ListTextRefusal { number, line }, refusal.in_words())
    });
    same(&states::power_on(), found, expected)
}

fn inspection(paper: &Typed, words: &[u16], ticks: &[u32]) -> Counted {
    let found = shabgozim::inspection(words, ticks);
    let found = found.map_err(|refusal| u16::from(refusal.number()));
    let expected = (paper.inspection)(words, ticks).map(|inspected| Inspection {
        text: inspected.text,
        findings: inspected.findings as u32,
    });
    same(&states::power_on(), found, expected)
}

/// The number of an outcome, as in a list.
pub fn number_of(outcome: Outcome) -> u16 {
    match outcome {
        Outcome::Taken(Act::None) => 0,
        Outcome::Taken(Act::Exposure) => 1,
        Outcome::Taken(Act::Housekeeping) => 2,
        Outcome::Taken(Act::Cover(cover)) => {
            let cover = paper::CoverMove {
                direction: cover.opens.into(),
                wave: cover.wave.into(),
                sensors: cover.sensors.into(),
                steps: cover.steps,
            };
            paper::Kind::Cover.word(cover.data())
        }
        Outcome::Ignored(cause) => cause.number().into(),
    }
}

fn ticked_of(ticked: paper::Ticked) -> Ticked {
    match ticked {
        paper::Ticked::Refused(_) => Ticked::Refused,
        paper::Ticked::NothingDue => Ticked::NothingDue,
        paper::Ticked::BlocksDue { task, flags } => Ticked::BlocksDue {
            ended: match task {
                paper::Task::Acquisition => Task::Acquisition,
                paper::Task::Housekeeping => Task::Housekeeping,
            },
            flags: shown(flags),
        },
    }
}

fn shown(flags: paper::ErrorFlags) -> shabgozim::ErrorFlags {
    shabgozim::ErrorFlags {
        ir_time: flags.ir_time,
        ir_word: flags.ir_word,
        ir_scan: flags.ir_scan,
        vis_time: flags.vis_time,
        vis_word: flags.vis_word,
    }
}

/// A translation into buffers of some length.
fn translation(paper: &Typed, state: &Numbers, plan: &[u8], room: usize) -> Counted {
    let (mut words, mut ticks) = (vec![0; room], vec![0; room]);
    let head = State { numbers: *state };
    let found = shabgozim::translate(&head, plan, &mut words, &mut ticks);
    let expected = paper::State::from_array(state);
    let expected = (paper.translate)(&expected, plan, &mut words, &mut ticks);
    let expected = expected.map(|done| Translation {
        count: done.count,
        end: done.end,
    });
    same(state, found, expected.map_err(refusal_of))
}

/// A translation into a list with room for every word.
fn schedule(paper: &Typed, state: &Numbers, plan: &[u8]) -> Counted {
    let (mut words, mut ticks) = ([0; MOST_WORDS], [0; MOST_WORDS]);
    let found = shabgozim::schedule(&State { numbers: *state }, plan);
    let expected = paper::State::from_array(state);
    let expected = (paper.translate)(&expected, plan, &mut words, &mut ticks);
    let expected = expected.map(|done| Schedule {
        words: ticks.into_iter().zip(words).take(done.count).collect(),
        end: done.end,
    });
    same(state, found, expected.map_err(refusal_of))
}

/// A report and the state it leaves, or the refusal and its words.
fn report(paper: &Typed, state: &Numbers, plan: &[u8]) -> Counted {
    let mut head = State { numbers: *state };
    let found = head.report(plan);
    let found = found.map_err(|refusal| (refusal, refusal.in_words(plan)));
    let mut expected_head = paper::State::from_array(state);
    let expected = (paper.report)(&mut expected_head, plan);
    let expected = expected.map_err(|refusal| (refusal_of(refusal), refusal.in_words(plan)));
    let count = same(state, found, expected)?;
    Ok(count + same(state, head.numbers, expected_head.to_array())?)
}

fn refusal_of(refusal: Refusal) -> PlanRefusal {
    PlanRefusal {
        number: refusal.number as u8,
        place: refusal.place,
        count: refusal.count.unwrap_or(0),
    }
}

fn any_flags(random: &mut Random) -> paper::ErrorFlags {
    let mut bit = || random.once_in(2);
    paper::ErrorFlags {
        ir_time: bit(),
        ir_word: bit(),
        ir_scan: bit(),
        vis_time: bit(),
        vis_word: bit(),
    }
}

/// The IR block written and, unless refused, read again.
fn ir_block(paper: &Typed, random: &mut Random, state: &Numbers) -> Counted {
    let flags = any_flags(random);
    let ended = random.once_in(2);
    let inputs = IrInputs {
        readings: std::array::from_fn(|_| random.number()),
        latch_up: random.once_in(2),
        not_closed: random.once_in(2),
        not_open: random.once_in(2),
    };
    let head = State { numbers: *state };
    let written = shabgozim::write_ir(&head, shown(flags), ended, &inputs);
    let bits = IrCallerBits {
        latch_up: inputs.latch_up,
        not_closed: inputs.not_closed,
        not_open: inputs.not_open,
    };
    let mut block = [0; shabgozim::IR_LENGTH];
    let head = paper::State::from_array(state);
    let number = (paper.write_ir)(&head, &flags, ended, &inputs.readings, bits, &mut block);
    let mut count = same(state, written, written_block(number, block))?;
    block[random.below(block.len())] ^= random.number() & random.number() & random.number();
    let expected = (paper.read_ir)(&block)
        .map(ir_meaning)
        .map_err(block_refusal);
    count += same(state, shabgozim::read_ir(&block), expected)?;
    Ok(count)
}

/// The CCD block written and, unless refused, read again.
fn ccd_block(paper: &Typed, random: &mut Random, state: &Numbers) -> Counted {
    let flags = any_flags(random);
    let ended = random.once_in(2);
    let inputs = CcdInputs {
        readings: std::array::from_fn(|_| random.number()),
        latch_up: random.once_in(2),
    };
    let head = State { numbers: *state };
    let written = shabgozim::write_ccd(&head, shown(flags), ended, &inputs);
    let mut block = [0; shabgozim::CCD_LENGTH];
    let head = paper::State::from_array(state);
    let CcdInputs { readings, latch_up } = inputs;
    let number = (paper.write_ccd)(&head, &flags, ended, &readings, latch_up, &mut block);
    let mut count = same(state, written, written_block(number, block))?;
    block[random.below(block.len())] ^= random.number() & random.number() & random.number();
    let expected = (paper.read_ccd)(&block)
        .map(ccd_meaning)
        .map_err(block_refusal);
    count += same(state, shabgozim::read_ccd(&block), expected)?;
    Ok(count)
}

fn written_block<const N: usize>(
    number: u16,
    block: [u16; N],
) -> Result<[u16; N], shabgozim::BlockRefusal> {
    match number as u8 {
        0 => Ok(block),
        number => Err(shabgozim::BlockRefusal { number, place: 0 }),
    }
}

fn block_refusal(refusal: paper::BlockRefusal) -> shabgozim::BlockRefusal {
    shabgozim::BlockRefusal {
        number: refusal.number as u8,
        place: refusal.place,
    }
}

fn ir_meaning(meaning: paper::IrMeaning) -> shabgozim::IrMeaning {
    shabgozim::IrMeaning {
        readings: meaning.readings,
        window_mode: meaning.window_mode,
        delay: meaning.delay,
        expo: meaning.expo,
        lamp_current: meaning.lamp_current,
        lamp_on: meaning.lamp_on,
        shutter_current: meaning.shutter_current,
        shutter_closed: meaning.shutter_closed,
        after_acquisition: meaning.after_acquisition,
        time_error: meaning.time_error,
        word_error: meaning.word_error,
        scan_error: meaning.scan_error,
        detector_on: meaning.detector_on,
        latch_up: meaning.latch_up,
        annealing_on: meaning.annealing_on,
        cover_opens: meaning.cover_opens,
        not_closed: meaning.not_closed,
        not_open: meaning.not_open,
    }
}

fn ccd_meaning(meaning: paper::CcdMeaning) -> shabgozim::CcdMeaning {
    shabgozim::CcdMeaning {
        readings: meaning.readings,
        x1: meaning.x1,
        y1: meaning.y1,
        x2: meaning.x2,
        y2: meaning.y2,
        delay: meaning.delay,
        expo: meaning.expo,
        sine_magnitude: meaning.sine_magnitude,
        sine_negative: meaning.sine_negative,
        cosine: meaning.cosine,
        after_acquisition: meaning.after_acquisition,
        time_error: meaning.time_error,
        word_error: meaning.word_error,
        latch_up: meaning.latch_up,
        lamp_on: meaning.lamp_on,
    }
}
