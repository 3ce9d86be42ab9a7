//! The two housekeeping blocks through the wrapper.

use shabgozim::{
    place, read_ccd, read_ir, write_ccd, write_ir, BlockRefusal, CcdInputs, ErrorFlags, IrInputs,
    State,
};

fn cover_shut() -> IrInputs {
    IrInputs {
        readings: [7; 14],
        not_open: true,
        ..IrInputs::default()
    }
}

fn refused(number: u8, place: usize) -> BlockRefusal {
    BlockRefusal { number, place }
}

#[test]
fn housekeeping_from_power_on() {
    let flags = ErrorFlags::default();
    let ir = write_ir(&State::power_on(), flags, false, &cover_shut()).unwrap();
    assert_eq!(ir[..14], [7; 14]);
    assert_eq!(ir[14..], [0, 269, 5, 1, 0x0606, 0x4002]);
    let inputs = CcdInputs::default();
    let ccd = write_ccd(&State::power_on(), flags, false, &inputs).unwrap();
    assert_eq!(ccd[16..], [0, 0, 875, 511, 5, 1, 0, 4095, 0x0002]);
}

#[test]
fn an_ir_block_says_what_was_written() {
    let flags = ErrorFlags {
        ir_time: true,
        ir_scan: true,
        ..ErrorFlags::default()
    };
    let mut head = State::power_on();
    head.numbers[place::WINDOW_MODE] = 1;
    head.numbers[place::IR_LAMP] = 11;
    let block = write_ir(&head, flags, true, &cover_shut()).unwrap();
    let meaning = read_ir(&block).unwrap();
    assert_eq!(meaning.readings, [7; 14]);
    assert_eq!(meaning.window_mode, 1);
    assert_eq!((meaning.delay, meaning.expo), (5, 1));
    assert_eq!((meaning.lamp_current, meaning.lamp_on), (5, true));
    assert_eq!(
        (meaning.shutter_current, meaning.shutter_closed),
        (6, false)
    );
    assert!(meaning.after_acquisition && meaning.time_error && meaning.scan_error);
    assert!(!meaning.word_error && !meaning.detector_on && !meaning.annealing_on);
    assert!(meaning.not_open && !meaning.not_closed && !meaning.latch_up);
    assert!(!meaning.cover_opens);
}

#[test]
fn a_ccd_block_says_what_was_written() {
    let flags = ErrorFlags {
        vis_word: true,
        ..ErrorFlags::default()
    };
    let mut head = State::power_on();
    head.numbers[place::SINE] = 0x1100;
    head.numbers[place::CCD_LAMP] = 7;
    let inputs = CcdInputs {
        readings: [9; 16],
        latch_up: true,
    };
    let block = write_ccd(&head, flags, false, &inputs).unwrap();
    let meaning = read_ccd(&block).unwrap();
    assert_eq!(meaning.readings, [9; 16]);
    assert_eq!((meaning.x1, meaning.y1), (0, 0));
    assert_eq!((meaning.x2, meaning.y2), (875, 511));
    assert_eq!((meaning.delay, meaning.expo), (5, 1));
    assert_eq!((meaning.sine_magnitude, meaning.cosine), (0x100, 4095));
    assert!(meaning.sine_negative && meaning.word_error);
    assert!(meaning.latch_up && meaning.lamp_on);
    assert!(!meaning.after_acquisition && !meaning.time_error);
}

#[test]
fn refusals_have_number_and_place() {
    let mut head = State::power_on();
    head.numbers[place::TASK] = 3;
    let flags = ErrorFlags::default();
    let written = write_ir(&head, flags, false, &cover_shut());
    assert_eq!(written, Err(refused(21, 0)));
    assert_eq!(read_ir(&[0; 19]), Err(refused(11, 0)));
    assert_eq!(read_ir(&[0; 20]), Err(refused(13, 15)));
    let mut block = [0; 25];
    block[20] = 5;
    assert_eq!(read_ccd(&block), Err(refused(12, 24)));
    block[20] = 4;
    assert_eq!(read_ccd(&block), Err(refused(13, 20)));
}
