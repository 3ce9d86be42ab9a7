//! Lists of timed words at the limits: of length, room, ticks and state.

use crate::limit_gaps;
use crate::list_case::{ComparesLists, ListCase, Lister, LONGEST_STATE, ROOM};
use crate::random::Random;
use crate::random_lists::{any_ticks, few_ticks, next_tick, some_ticks, Gap, RandomLists};
use crate::reduce::Counted;
use crate::sides::Sides;
use crate::states::{self, Numbers};
use shabgozim::MOST_WORDS;

/// Lengths about the most words, and others that one byte takes for less.
const LENGTHS: [usize; 11] = [0, 1, 2, 3, 254, 255, 256, 257, 258, 512, 513];
/// Room for the longest of these and more.
const LENGTHS_ROOM: usize = 600;
/// Lengths that two bytes take for less, and shorter ones beside them.
pub const LONG_LENGTHS: [usize; 9] = [0, 1, 256, 65_535, 65_536, 65_537, 65_792, 65_793, 131_074];
/// Room for the longest of these.
const LONGEST_ROOM: usize = 131_074;

/// Every limit from power-on, from states in which something is to end, and
/// from states in range.
pub fn lists(sides: &Sides, random: &mut Random, times: u32) -> Counted {
    let mut bases = vec![
        states::power_on(),
        states::longest_times(),
        limit_gaps::busy_and_moving(),
    ];
    bases.extend((0..40 * times).map(|_| states::in_range(random)));
    let mut count = long_lengths(sides)?;
    let mut lister = Lister::with_room(sides, LENGTHS_ROOM);
    let mut limits = Limits::new(&mut lister, random);
    for base in bases {
        count += limits.words_and_ticks(&base)?;
        count += limits.states_at_limits(&base)?;
        count += limits.state_lengths(&base)?;
    }
    Ok(count)
}

/// Every limit of words and ticks from power-on.
pub fn from_power_on(lister: &mut impl ComparesLists, random: &mut Random) -> Counted {
    Limits::new(lister, random).words_and_ticks(&states::power_on())
}

/// Lists far too long, and room for far more outcomes than there are words.
fn long_lengths(sides: &Sides) -> Counted {
    let mut lister = Lister::new(sides);
    let mut long_lister = Lister::with_room(sides, LONGEST_ROOM);
    let mut count = 0;
    for words in LONG_LENGTHS {
        for ticks in LONG_LENGTHS {
            let ticks = (0..ticks as u32).collect();
            let mut case = ListCase::new(&states::power_on(), vec![0; words], ticks);
            count += lister.compare(&case)?;
            if case.ticks.len() == words {
                for room in LONG_LENGTHS {
                    case.room = room;
                    count += long_lister.compare(&case)?;
                }
            }
        }
    }
    Ok(count)
}

/// What the comparisons from each state are made with.
struct Limits<'a, L> {
    lister: &'a mut L,
    lists: RandomLists,
    random: &'a mut Random,
}

impl<L: ComparesLists> Limits<'_, L> {
    fn new<'a>(lister: &'a mut L, random: &'a mut Random) -> Limits<'a, L> {
        Limits {
            lister,
            lists: RandomLists::new(),
            random,
        }
    }

    fn words_and_ticks(&mut self, base: &Numbers) -> Counted {
        let mut count = self.lengths(base)?;
        count += self.each_pair(base)?;
        count += limit_gaps::between_two(self.lister, base)?;
        count += self.up_to_the_last_tick(base)?;
        count += self.nearly_full(base)?;
        Ok(count)
    }

    /// So many words, with gaps of one of these sorts.
    fn list(&mut self, state: &Numbers, words: usize, gaps: &[Gap]) -> ListCase {
        let gap = *self.random.pick(gaps);
        self.lists.list(self.random, state, words, gap)
    }

    /// Two to eight words.
    fn short_list(&mut self, state: &Numbers) -> ListCase {
        let words = 2 + self.random.below(7);
        self.list(state, words, &[next_tick, few_ticks, few_ticks, some_ticks])
    }

    /// The first words and the first ticks of a list, of every two lengths
    /// and with too little room, just enough, and more.
    fn lengths(&mut self, base: &Numbers) -> Counted {
        let list = self.list(base, LENGTHS_ROOM, &[next_tick, few_ticks]);
        let mut count = 0;
        for words in LENGTHS {
            for ticks in LENGTHS {
                let mut case = list.clone();
                case.words.truncate(words);
                case.ticks.truncate(ticks);
                for room in [0, words.saturating_sub(1), words, words + 1, LENGTHS_ROOM] {
                    case.room = room;
                    count += self.lister.compare(&case)?;
                }
            }
        }
        Ok(count)
    }

    /// A full list with each tick in turn equal to the one before it, and
    /// less.
    fn each_pair(&mut self, base: &Numbers) -> Counted {
        let list = self.list(base, MOST_WORDS, &[next_tick, few_ticks]);
        let mut count = self.lister.compare(&list)?;
        let mut case = list.clone();
        for place in 1..MOST_WORDS {
            let before = list.ticks[place - 1];
            for tick in [before, before.saturating_sub(1), before / 2, 0] {
                case.ticks[place] = tick;
                count += self.lister.compare(&case)?;
            }
            case.ticks[place] = list.ticks[place];
        }
        Ok(count)
    }

    /// Lists from the state with each number at its limits and past them.
    fn states_at_limits(&mut self, base: &Numbers) -> Counted {
        let mut count = 0;
        for state in states::at_limits(base) {
            let list = self.short_list(&state);
            for case in right_and_wrong(&list) {
                count += self.lister.compare(&case)?;
            }
        }
        Ok(count)
    }

    /// Lists from the state's numbers, more of them or fewer.
    fn state_lengths(&mut self, base: &Numbers) -> Counted {
        let mut list = self.short_list(base);
        let mut count = 0;
        for length in 0..=LONGEST_STATE {
            list.state = base.iter().copied().cycle().take(length).collect();
            for case in right_and_wrong(&list) {
                count += self.lister.compare(&case)?;
            }
        }
        Ok(count)
    }

    /// Lists of every length from two words on, by equal gaps from tick 0 to
    /// the last tick there is.
    fn up_to_the_last_tick(&mut self, base: &Numbers) -> Counted {
        let mut count = 0;
        for words in 2..=MOST_WORDS {
            let mut case = self.list(base, words, &[next_tick]);
            let gap = u32::MAX / (words as u32 - 1);
            case.ticks = (0..words as u32).map(|index| index * gap).collect();
            case.ticks[words - 1] = u32::MAX;
            count += self.lister.compare(&case)?;
        }
        Ok(count)
    }

    /// 254 to 257 words, with just enough room and too little; the gaps of
    /// one list are long.
    fn nearly_full(&mut self, base: &Numbers) -> Counted {
        let mut count = 0;
        for index in 0..100 {
            let gap = match index {
                0 => *self.random.pick(&[some_ticks as Gap, any_ticks]),
                _ => *self.random.pick(&[next_tick as Gap, few_ticks]),
            };
            let words = MOST_WORDS + 1 - index % 4;
            let mut case = self.list(base, words, &[gap]);
            for room in [words - 1, words, ROOM] {
                case.room = room;
                count += self.lister.compare(&case)?;
            }
        }
        Ok(count)
    }
}

/// A list of two words or more, an empty one, and all that can be wrong with
/// a list in turn.
fn right_and_wrong(list: &ListCase) -> [ListCase; 7] {
    let mut cases = std::array::from_fn(|_| list.clone());
    let [_, empty, equal, fewer_words, fewer_ticks, short, long] = &mut cases;
    (empty.words, empty.ticks) = (Vec::new(), Vec::new());
    equal.ticks[1] = equal.ticks[0];
    fewer_words.words.pop();
    fewer_ticks.ticks.pop();
    short.room = list.words.len() - 1;
    long.words.resize(MOST_WORDS + 1, 0);
    long.ticks = (0..long.words.len() as u32).collect();
    cases
}
