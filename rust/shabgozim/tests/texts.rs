//! Listings, reports, refusals in words and the table of upper bytes through the
//! wrapper.

use shabgozim::{
    listing, place, raw, schedule, upper_bytes, PlanRefusal, State, LISTING_LENGTH,
    MOST_PLAN_BYTES, REFUSAL_LENGTH, REPORT_LENGTH,
};

/// Document 01's example.
const PLAN: [u8; 13] = [
    0x01, 0x00, 0x0A, 0x05, 0x0C, 0xFF, 0x00, 0x0F, 0xF8, 0x01, 0x0F, 0x01, 0x10,
];
const LISTED: &str = "tick word\n0 2011\n1 A000\n2 600F\n3 E0F8\n69 8000\n227 4000\nend 230\n";
/// The cover opens by one step.
const COVER: [u8; 9] = [0x01, 0x00, 0x06, 0x05, 0x0E, 0x01, 0x00, 0x00, 0x01];
/// A mirror position, and a window mode that there is not.
const FAULTY: [u8; 12] = [
    0x01, 0x00, 0x09, 0x05, 0x0C, 0xFF, 0x00, 0x0F, 0xF8, 0x02, 0x05, 0x02,
];

fn refused(number: u8, place: usize) -> PlanRefusal {
    PlanRefusal {
        number,
        place,
        count: 0,
    }
}

/// A head to which the plan's words were sent tick by tick.
fn driven(mut head: State, plan: &[u8]) -> State {
    let schedule = schedule(&head, plan).unwrap();
    let mut words = schedule.words.iter().peekable();
    for now in 0..schedule.end {
        if let Some(&(_, word)) = words.next_if(|(tick, _)| *tick == now) {
            head.word(word);
        }
        head.tick();
    }
    head
}

#[test]
fn the_example_is_listed() {
    let listed = listing(&State::power_on(), &PLAN);
    assert_eq!(listed.as_deref(), Ok(LISTED));
    let empty = listing(&State::power_on(), &[1, 0, 0]);
    assert_eq!(empty.as_deref(), Ok("tick word\nend 0\n"));
}

#[test]
fn a_refused_listing_has_number_and_place() {
    let head = State::power_on();
    assert_eq!(listing(&head, &[]), Err(refused(2, 0)));
    assert_eq!(listing(&head, &[2, 0, 0]), Err(refused(3, 0)));
    assert_eq!(listing(&head, &[1, 0, 1]), Err(refused(4, 0)));
    assert_eq!(listing(&head, &FAULTY), Err(refused(8, 9)));
    let mut moving = head;
    moving.word(0x1201);
    assert_eq!(listing(&moving, &PLAN), Err(refused(1, 0)));
}

#[test]
fn a_listing_wants_its_room() {
    let head = State::power_on();
    let length = (LISTED.len() as u64) << 32;
    let mut text = [0xAA; LISTING_LENGTH];
    for short in [0, 1, LISTED.len() - 1] {
        let answer = raw::listing(&head.numbers, &PLAN, &mut text[..short]);
        assert_eq!(answer, length | 10, "{short} bytes");
        assert_eq!(text, [0xAA; LISTING_LENGTH], "{short} bytes");
    }
    for enough in [LISTED.len(), LISTING_LENGTH] {
        text.fill(0xAA);
        let answer = raw::listing(&head.numbers, &PLAN, &mut text[..enough]);
        assert_eq!(answer, length, "{enough} bytes");
        assert_eq!(&text[..LISTED.len()], LISTED.as_bytes());
        assert!(text[LISTED.len()..].iter().all(|&byte| byte == 0xAA));
    }
}

#[test]
fn a_report_wants_its_room() {
    let report = State::power_on().report(&PLAN).unwrap();
    let length = (report.len() as u64) << 32;
    let mut head = State::power_on();
    let mut text = vec![0xAA; REPORT_LENGTH];
    for short in [0, 1, report.len() - 1] {
        let answer = raw::report(&mut head.numbers, &PLAN, &mut text[..short]);
        assert_eq!(answer, length | 10, "{short} bytes");
        assert!(text.iter().all(|&byte| byte == 0xAA), "{short} bytes");
        assert_eq!(head, State::power_on(), "{short} bytes");
    }
    let room = &mut text[..report.len()];
    let answer = raw::report(&mut head.numbers, &PLAN, room);
    assert_eq!(answer, length);
    assert_eq!(room, report.as_bytes());
    assert_ne!(head, State::power_on());
    assert!(text[report.len()..].iter().all(|&byte| byte == 0xAA));
}

#[test]
fn the_longest_plans_have_texts() {
    let exposures = [1, 0x0F].repeat(64);
    let mirror_positions = [5, 0x0C, 0xFF, 0x00, 0x0F, 0xF8].repeat(64);
    for orders in [exposures, mirror_positions] {
        let [high, low] = (orders.len() as u16).to_be_bytes();
        let plan = [&[1, high, low], &orders[..]].concat();
        let mut head = State::power_on();
        assert!(listing(&head, &plan).unwrap().len() <= LISTING_LENGTH);
        assert!(head.report(&plan).unwrap().len() <= REPORT_LENGTH);
    }
}

#[test]
fn a_report_brings_the_head_to_the_end() {
    for plan in [&PLAN[..], &COVER, &[1, 0, 0]] {
        let mut head = State::power_on();
        let text = head.report(plan).unwrap();
        assert_eq!(head, driven(State::power_on(), plan));
        assert!(text.is_ascii() && text.ends_with('\n'), "{text:?}");
    }
}

#[test]
fn a_refused_report_leaves_the_head() {
    for (plan, refusal) in [
        (&[1, 0][..], refused(2, 0)),
        (&[0, 0, 0], refused(3, 0)),
        (&[1, 0, 0, 0], refused(4, 0)),
        (&FAULTY, refused(8, 9)),
    ] {
        let mut head = State::power_on();
        assert_eq!(head.report(plan), Err(refusal));
        assert_eq!(head, State::power_on());
        // Nor do ticks pass on a head that moves.
        head.word(0x1201);
        let moving = head;
        assert_eq!(head.report(plan), Err(refusal));
        assert_eq!(head, moving);
    }
}

#[test]
fn a_state_out_of_range_has_no_texts() {
    let mut head = State::power_on();
    head.numbers[place::CCD_DELAY] = 4;
    let given = head;
    assert_eq!(listing(&head, &PLAN), Err(refused(1, 0)));
    assert_eq!(head.report(&PLAN), Err(refused(1, 0)));
    assert_eq!(head, given);
}

#[test]
fn a_report_waits_for_the_plan_before() {
    let mut head = State::power_on();
    head.report(&COVER).unwrap();
    assert!(!head.is_at_rest());
    assert_eq!(schedule(&head, &PLAN), Err(refused(1, 0)));
    let mut rested = head;
    while !rested.is_at_rest() {
        rested.tick();
    }
    head.report(&PLAN).unwrap();
    assert_eq!(head, driven(rested, &PLAN));
    assert_eq!(head.numbers[place::COVER_DIRECTION], 1);
}

#[test]
fn a_report_waits_for_a_task() {
    let mut head = State::power_on();
    head.word(0x8000);
    assert!(head.is_busy());
    head.report(&[1, 0, 0]).unwrap();
    assert_eq!(head, State::power_on());
}

#[test]
fn refusals_in_words() {
    let too_short = refused(2, 0).in_words(&[1, 0]);
    assert_eq!(too_short, "refused 2: fewer than 3 bytes (byte 0)");
    let out_of_range = refused(8, 9).in_words(&FAULTY);
    assert_eq!(
        out_of_range,
        "refused 8: a field is out of range (byte 9, order 2)"
    );
    for number in 1..=10 {
        let words = refused(number, 0).in_words(&PLAN);
        assert!(words.starts_with(&format!("refused {number}: ")), "{words}");
        assert!(words.is_ascii() && !words.contains('\n'), "{words}");
    }
    for number in [0, 11, 255] {
        assert_eq!(refused(number, 0).in_words(&PLAN), "");
    }
}

#[test]
fn any_place_and_plan_can_be_told() {
    let long = [0; MOST_PLAN_BYTES];
    for place in [0, 3, 4095, 4096, u32::MAX as usize, usize::MAX] {
        for plan in [&[][..], &PLAN, &long] {
            let words = refused(8, place).in_words(plan);
            assert!(words.starts_with("refused 8: "), "{words}");
        }
    }
}

#[test]
fn a_refusal_wants_its_room() {
    let mut text = [0xAA; REFUSAL_LENGTH];
    let words = "refused 2: fewer than 3 bytes (byte 0)\n";
    for short in [0, 1, words.len() - 1] {
        assert_eq!(raw::refusal(2, 0, &[], &mut text[..short]), 0);
    }
    assert_eq!(raw::refusal(0, 0, &[], &mut text), 0);
    assert_eq!(raw::refusal(11, 0, &[], &mut text), 0);
    assert_eq!(text, [0xAA; REFUSAL_LENGTH]);
    let length = raw::refusal(2, 0, &[], &mut text[..words.len()]) as usize;
    assert_eq!(&text[..length], words.as_bytes());
    assert!(text[length..].iter().all(|&byte| byte == 0xAA));
}

#[test]
fn a_table_without_room_is_not_written() {
    let table = upper_bytes();
    let length = table.len();
    let mut text = vec![0xBB; length];
    assert_eq!(
        raw::upper_bytes(&mut text[..length - 1]),
        10 | (length as u64) << 32
    );
    assert!(text.iter().all(|&byte| byte == 0xBB));
    assert_eq!(raw::upper_bytes(&mut text), (length as u64) << 32);
    assert_eq!(text, table.as_bytes());
}
