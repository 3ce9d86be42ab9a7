//! Every example of document 01.

use paper::{
    listing, power_on, tick, translate, word, write_ccd, write_ir, ErrorFlags, IrCallerBits,
    MirrorSet, Task, Ticked, Translation,
};

const PLAN: [u8; 13] = [
    0x01, 0x00, 0x0A, 0x05, 0x0C, 0xFF, 0x00, 0x0F, 0xF8, 0x01, 0x0F, 0x01, 0x10,
];

fn from_power_on(code: u16) -> u16 {
    word(&mut power_on(), code)
}

#[test]
fn vdetcom_latch_then_register() {
    let mut head = power_on();
    assert_eq!(word(&mut head, 0xD009), 0);
    assert_eq!(head.settings.vdetcom, 2430);
    assert_eq!(word(&mut head, 0x3088), 0);
    assert_eq!(head.settings.vdetcom, 2440);
    assert_eq!(head.vdetcom_latch, 9);
}

#[test]
fn single_words() {
    assert_eq!(from_power_on(0x1804), 24);
    assert_eq!(from_power_on(0x1805), 0);
    assert_eq!(from_power_on(0x1051), 0x1051);
    assert_eq!(from_power_on(0x1052), 24);
    assert_eq!(from_power_on(0xA9FF), 0);
    assert_eq!(from_power_on(0xAA00), 24);
    assert_eq!(from_power_on(0x3800), 23);
}

#[test]
fn c001_is_not_stop() {
    assert_eq!(from_power_on(0xC001), 24);
    let mut head = power_on();
    assert_eq!(word(&mut head, 0x8000), 1);
    let busy = head.busy;
    assert_eq!(word(&mut head, 0xC001), 22);
    assert_eq!(head.busy, busy);
}

#[test]
fn minus_zero() {
    let mut head = power_on();
    assert_eq!(word(&mut head, 0x2010), 0);
    let begun = MirrorSet {
        received: 1,
        sin_m: 0x10,
        sin_l: 0,
        cos_m: 0,
    };
    assert_eq!(head.mirror_set, begun);
    for code in [0xA000, 0x600F, 0xE0FF] {
        assert_eq!(head.settings.sine, 0);
        assert_eq!(word(&mut head, code), 0);
    }
    assert_eq!(head.settings.sine, 0x1000);
    assert_eq!(head.settings.cosine, 4095);
}

#[test]
fn lengths() {
    let mut head = power_on();
    assert_eq!(head.settings.acquisition_length(), 158);
    word(&mut head, 0xF00A);
    word(&mut head, 0x080A);
    assert_eq!(head.settings.acquisition_length(), 181);
    assert_eq!(word(&mut head, 0x8000), 1);
    assert_eq!(head.busy, 181);
}

#[test]
fn lengths_lie_in_156_to_4238() {
    let mut settings = power_on().settings;
    settings.ir_delay = 0;
    settings.ir_expo = 0;
    settings.ccd_expo = 0;
    assert_eq!(settings.acquisition_length(), 156);
    settings.ir_delay = 1023;
    settings.ir_expo = 1023;
    assert_eq!(settings.acquisition_length(), 4233);
    settings.ccd_delay = 1023;
    settings.ccd_expo = 1023;
    assert_eq!(settings.acquisition_length(), 4238);
}

#[test]
fn housekeeping_from_power_on() {
    let mut head = power_on();
    assert_eq!(word(&mut head, 0x4000), 2);
    assert_eq!(tick(&mut head), Ticked::NothingDue);
    assert_eq!(tick(&mut head), Ticked::NothingDue);
    let flags = ErrorFlags::default();
    let due = Ticked::BlocksDue {
        task: Task::Housekeeping,
        flags,
    };
    assert_eq!(tick(&mut head), due);

    let shut = IrCallerBits {
        latch_up: false,
        not_closed: false,
        not_open: true,
    };
    let mut ir = [0xAAAA; 20];
    assert_eq!(write_ir(&head, &flags, false, &[7; 14], shut, &mut ir), 0);
    assert_eq!(ir[..14], [7; 14]);
    assert_eq!(ir[14..], [0, 269, 5, 1, 0x0606, 0x4002]);

    let mut ccd = [0xAAAA; 25];
    assert_eq!(
        write_ccd(&head, &flags, false, &[9; 16], false, &mut ccd),
        0
    );
    assert_eq!(ccd[..16], [9; 16]);
    assert_eq!(ccd[16..], [0, 0, 875, 511, 5, 1, 0, 4095, 0x0002]);
}

#[test]
fn empty_plan() {
    let done = translate(&power_on(), &[1, 0, 0], &mut [], &mut []);
    assert_eq!(done, Ok(Translation { count: 0, end: 0 }));
}

#[test]
fn example_plan() {
    let mut words = [0xAAAA; 8];
    let mut ticks = [77; 8];
    let done = translate(&power_on(), &PLAN, &mut words, &mut ticks);
    assert_eq!(done, Ok(Translation { count: 6, end: 230 }));
    let expected = [
        0x2011, 0xA000, 0x600F, 0xE0F8, 0x8000, 0x4000, 0xAAAA, 0xAAAA,
    ];
    assert_eq!(words, expected);
    assert_eq!(ticks, [0, 1, 2, 3, 69, 227, 77, 77]);
}

#[test]
fn example_listing() {
    let expected = "tick word\n0 2011\n1 A000\n2 600F\n3 E0F8\n69 8000\n227 4000\nend 230\n";
    assert_eq!(listing(&PLAN), expected);
}

#[test]
fn listing_of_refusals() {
    assert_eq!(listing(&[]), "refused 2 at 0\n");
    assert_eq!(listing(&[1, 0, 3, 1, 15, 0]), "refused 5 at 5\n");
    assert_eq!(listing(&[0; 4096]), "refused 3 at 0\n");
    assert_eq!(listing(&[0; 4097]), "input too long\n");
}
