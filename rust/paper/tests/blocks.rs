//! The two housekeeping blocks.

mod common;

use common::{random_state, Random};
use paper::{
    power_on, read_ccd, read_ir, write_ccd, write_ir, BlockRefusal, ErrorFlags, IrCallerBits,
};

const BITS: IrCallerBits = IrCallerBits {
    latch_up: false,
    not_closed: false,
    not_open: false,
};
const NO_FLAGS: ErrorFlags = ErrorFlags {
    ir_time: false,
    ir_word: false,
    ir_scan: false,
    vis_time: false,
    vis_word: false,
};

fn ir_block() -> [u16; 20] {
    let mut block = [0; 20];
    let answer = write_ir(&power_on(), &NO_FLAGS, false, &[0; 14], BITS, &mut block);
    assert_eq!(answer, 0);
    block
}

fn ccd_block() -> [u16; 25] {
    let mut block = [0; 25];
    let answer = write_ccd(&power_on(), &NO_FLAGS, false, &[0; 16], false, &mut block);
    assert_eq!(answer, 0);
    block
}

fn refused(number: u16, place: usize) -> BlockRefusal {
    BlockRefusal { number, place }
}

fn random_flags(random: &mut Random) -> ErrorFlags {
    ErrorFlags {
        ir_time: random.bit(),
        ir_word: random.bit(),
        ir_scan: random.bit(),
        vis_time: random.bit(),
        vis_word: random.bit(),
    }
}

#[test]
fn wrong_lengths_are_11() {
    let mut broken = power_on();
    broken.busy = 9;
    for length in (0..40).filter(|&length| length != 20) {
        let mut buffer = vec![0xAAAA; length];
        let answer = write_ir(&broken, &NO_FLAGS, false, &[0; 14], BITS, &mut buffer);
        assert_eq!(answer, 11);
        assert!(buffer.iter().all(|&word| word == 0xAAAA));
        assert_eq!(read_ir(&buffer), Err(refused(11, 0)));
    }
    for length in (0..40).filter(|&length| length != 25) {
        let mut buffer = vec![0xAAAA; length];
        let answer = write_ccd(&broken, &NO_FLAGS, false, &[0; 16], false, &mut buffer);
        assert_eq!(answer, 11);
        assert!(buffer.iter().all(|&word| word == 0xAAAA));
        assert_eq!(read_ccd(&buffer), Err(refused(11, 0)));
    }
}

#[test]
fn a_state_out_of_range_is_21() {
    let mut broken = power_on();
    broken.settings.ccd_delay = 4;
    let mut ir = [0xAAAA; 20];
    assert_eq!(
        write_ir(&broken, &NO_FLAGS, false, &[0; 14], BITS, &mut ir),
        21
    );
    assert_eq!(ir, [0xAAAA; 20]);
    let mut ccd = [0xAAAA; 25];
    assert_eq!(
        write_ccd(&broken, &NO_FLAGS, false, &[0; 16], false, &mut ccd),
        21
    );
    assert_eq!(ccd, [0xAAAA; 25]);
}

#[test]
fn each_ir_flag_has_its_bit() {
    let flag_word = |ended, flags: ErrorFlags, bits, change: fn(&mut paper::Settings)| {
        let mut state = power_on();
        change(&mut state.settings);
        let mut block = [0; 20];
        assert_eq!(
            write_ir(&state, &flags, ended, &[0; 14], bits, &mut block),
            0
        );
        block[19]
    };
    let with = |flags| flag_word(false, flags, BITS, |_| {});
    let caller = |bits| flag_word(false, NO_FLAGS, bits, |_| {});
    let setting = |change| flag_word(false, NO_FLAGS, BITS, change);
    assert_eq!(flag_word(true, NO_FLAGS, BITS, |_| {}), 0x0003);
    assert_eq!(
        with(ErrorFlags {
            ir_time: true,
            ..NO_FLAGS
        }),
        0x0006
    );
    assert_eq!(
        with(ErrorFlags {
            ir_word: true,
            ..NO_FLAGS
        }),
        0x000A
    );
    assert_eq!(
        with(ErrorFlags {
            ir_scan: true,
            ..NO_FLAGS
        }),
        0x0012
    );
    assert_eq!(
        with(ErrorFlags {
            vis_time: true,
            vis_word: true,
            ..NO_FLAGS
        }),
        0x0002
    );
    assert_eq!(setting(|settings| settings.detector = 1), 0x0022);
    assert_eq!(
        caller(IrCallerBits {
            latch_up: true,
            ..BITS
        }),
        0x0042
    );
    assert_eq!(setting(|settings| settings.annealing = 1), 0x0202);
    assert_eq!(setting(|settings| settings.cover_direction = 1), 0x1002);
    assert_eq!(
        caller(IrCallerBits {
            not_closed: true,
            ..BITS
        }),
        0x2002
    );
    assert_eq!(
        caller(IrCallerBits {
            not_open: true,
            ..BITS
        }),
        0x4002
    );
}

#[test]
fn each_vis_flag_has_its_bit() {
    let flag_word = |ended, flags: ErrorFlags, latch_up, lamp| {
        let mut state = power_on();
        state.settings.ccd_lamp = lamp;
        let mut block = [0; 25];
        assert_eq!(
            write_ccd(&state, &flags, ended, &[0; 16], latch_up, &mut block),
            0
        );
        block[24]
    };
    let ir_only = ErrorFlags {
        ir_time: true,
        ir_word: true,
        ir_scan: true,
        ..NO_FLAGS
    };
    assert_eq!(flag_word(true, NO_FLAGS, false, 6), 0x0003);
    assert_eq!(
        flag_word(
            false,
            ErrorFlags {
                vis_time: true,
                ..NO_FLAGS
            },
            false,
            6
        ),
        0x0006
    );
    assert_eq!(
        flag_word(
            false,
            ErrorFlags {
                vis_word: true,
                ..NO_FLAGS
            },
            false,
            6
        ),
        0x000A
    );
    assert_eq!(flag_word(false, ir_only, false, 6), 0x0002);
    assert_eq!(flag_word(false, NO_FLAGS, true, 6), 0x0012);
    assert_eq!(flag_word(false, NO_FLAGS, false, 1), 0x0102);
}

#[test]
fn lamp_and_shutter_word() {
    let mut state = power_on();
    state.settings.ir_lamp = 0b01011;
    state.settings.shutter = 0b11101;
    state.settings.window_mode = 1;
    let mut block = [0; 20];
    assert_eq!(
        write_ir(&state, &NO_FLAGS, false, &[0; 14], BITS, &mut block),
        0
    );
    assert_eq!(block[14..16], [90, 179]);
    assert_eq!(block[18], 0x1E15);
    let meaning = read_ir(&block).unwrap();
    assert_eq!((meaning.lamp_current, meaning.lamp_on), (5, true));
    assert_eq!(
        (meaning.shutter_current, meaning.shutter_closed),
        (14, true)
    );
    assert_eq!(meaning.window_mode, 1);
}

#[test]
fn reading_undoes_writing_ir() {
    let mut random = Random::new(3);
    for _ in 0..20_000 {
        let state = random_state(&mut random, true);
        let flags = random_flags(&mut random);
        let ended = random.bit();
        let readings = std::array::from_fn(|_| random.word());
        let bits = IrCallerBits {
            latch_up: random.bit(),
            not_closed: random.bit(),
            not_open: random.bit(),
        };
        let mut block = [0; 20];
        assert_eq!(
            write_ir(&state, &flags, ended, &readings, bits, &mut block),
            0
        );
        let meaning = read_ir(&block).unwrap();
        let settings = state.settings;
        assert_eq!(meaning.readings, readings);
        assert_eq!(meaning.window_mode, settings.window_mode);
        assert_eq!(
            (meaning.delay, meaning.expo),
            (settings.ir_delay, settings.ir_expo)
        );
        assert_eq!(
            meaning.lamp_current * 2 + u16::from(meaning.lamp_on),
            settings.ir_lamp
        );
        let shutter = meaning.shutter_current * 2 + u16::from(meaning.shutter_closed);
        assert_eq!(shutter, settings.shutter);
        assert_eq!(meaning.after_acquisition, ended);
        assert_eq!(meaning.time_error, flags.ir_time);
        assert_eq!(meaning.word_error, flags.ir_word);
        assert_eq!(meaning.scan_error, flags.ir_scan);
        assert_eq!(meaning.detector_on, settings.detector == 1);
        assert_eq!(meaning.latch_up, bits.latch_up);
        assert_eq!(meaning.annealing_on, settings.annealing % 2 == 1);
        assert_eq!(meaning.cover_opens, settings.cover_direction == 1);
        assert_eq!(meaning.not_closed, bits.not_closed);
        assert_eq!(meaning.not_open, bits.not_open);
    }
}

#[test]
fn reading_undoes_writing_ccd() {
    let mut random = Random::new(4);
    for _ in 0..20_000 {
        let state = random_state(&mut random, true);
        let flags = random_flags(&mut random);
        let ended = random.bit();
        let latch_up = random.bit();
        let readings = std::array::from_fn(|_| random.word());
        let mut block = [0; 25];
        assert_eq!(
            write_ccd(&state, &flags, ended, &readings, latch_up, &mut block),
            0
        );
        let meaning = read_ccd(&block).unwrap();
        let settings = state.settings;
        assert_eq!(meaning.readings, readings);
        assert_eq!((meaning.x1, meaning.y1), (settings.x1, settings.y1));
        assert_eq!((meaning.x2, meaning.y2), (settings.x2, settings.y2));
        assert_eq!(
            (meaning.delay, meaning.expo),
            (settings.ccd_delay, settings.ccd_expo)
        );
        let sine = meaning.sine_magnitude + 4096 * u16::from(meaning.sine_negative);
        assert_eq!((sine, meaning.cosine), (settings.sine, settings.cosine));
        assert_eq!(meaning.after_acquisition, ended);
        assert_eq!(meaning.time_error, flags.vis_time);
        assert_eq!(meaning.word_error, flags.vis_word);
        assert_eq!(meaning.latch_up, latch_up);
        assert_eq!(meaning.lamp_on, settings.ccd_lamp % 2 == 1);
    }
}

#[test]
fn every_value_of_every_ir_word() {
    for place in 14..20 {
        for value in 0..=u16::MAX {
            let mut block = ir_block();
            block[place] = value;
            let expected = match place {
                14 => (value != 0).then_some((13, 15)),
                15 => (value != 269).then_some((13, 15)),
                16 | 17 => (value > 1023).then_some((13, place)),
                18 => (value & 0xE0E0 != 0).then_some((12, place)),
                _ => (value & 0x8D82 != 2).then_some((12, place)),
            };
            let answer = read_ir(&block).err().map(|it| (it.number, it.place));
            assert_eq!(answer, expected);
        }
    }
}

#[test]
fn every_value_of_every_ccd_word() {
    for place in 16..25 {
        for value in 0..=u16::MAX {
            let mut block = ccd_block();
            block[place] = value;
            let expected = match place {
                16 | 18 | 21 => (value > 1023).then_some(13),
                17 | 19 => (value > 511).then_some(13),
                20 => (!(5..=1023).contains(&value)).then_some(13),
                22 => (value & 0xE000 != 0).then_some(12),
                23 => (value > 4095).then_some(13),
                _ => (value & 0xFEE2 != 2).then_some(12),
            };
            let answer = read_ccd(&block).err().map(|it| (it.number, it.place));
            assert_eq!(answer, expected.map(|number| (number, place)));
        }
    }
}

#[test]
fn the_first_faulty_word_decides() {
    let mut block = ir_block();
    block[19] = 0;
    assert_eq!(read_ir(&block), Err(refused(12, 19)));
    block[18] = 0x8000;
    assert_eq!(read_ir(&block), Err(refused(12, 18)));
    block[17] = 1024;
    assert_eq!(read_ir(&block), Err(refused(13, 17)));
    block[14] = 90;
    assert_eq!(read_ir(&block), Err(refused(13, 15)));
    let mut block = ccd_block();
    block[24] = 0;
    block[23] = 4096;
    assert_eq!(read_ccd(&block), Err(refused(13, 23)));
    block[22] = 0x2000;
    assert_eq!(read_ccd(&block), Err(refused(12, 22)));
}

#[test]
fn readings_may_hold_anything() {
    let mut ir = ir_block();
    ir[..14].fill(0xFFFF);
    assert_eq!(read_ir(&ir).unwrap().readings, [0xFFFF; 14]);
    let mut ccd = ccd_block();
    ccd[..16].fill(0xFFFF);
    assert_eq!(read_ccd(&ccd).unwrap().readings, [0xFFFF; 16]);
}
