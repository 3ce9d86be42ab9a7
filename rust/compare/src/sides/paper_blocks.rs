//! The two blocks of the implementation written from document 01, behind the
//! library's interface.

use super::paper::{load, STATE_REFUSED};
use super::Shown;
use paper::blocks::{CCD_LENGTH, CCD_READINGS, IR_LENGTH, IR_READINGS};
use paper::{BlockRefusal, CcdMeaning, ErrorFlags, IrCallerBits, IrMeaning};
use shabgozim::{CCD_MEANING_LENGTH, IR_MEANING_LENGTH};

const WRONG_LENGTH: u32 = 11;

#[no_mangle]
#[inline(never)]
pub fn paper_write_ir(state: &[u16], shown: Shown, readings: &[u16], block: &mut [u16]) -> u32 {
    let Ok(readings) = <&[u16; IR_READINGS]>::try_from(readings) else {
        return WRONG_LENGTH;
    };
    if block.len() != IR_LENGTH {
        return WRONG_LENGTH;
    }
    let Some(state) = load(state) else {
        return STATE_REFUSED;
    };
    let caller = IrCallerBits {
        latch_up: bit(shown.bits, 0),
        not_closed: bit(shown.bits, 1),
        not_open: bit(shown.bits, 2),
    };
    let flags = flags(shown.flags);
    let ended = shown.ended == 1;
    u32::from(paper::write_ir(
        &state, &flags, ended, readings, caller, block,
    ))
}

#[no_mangle]
#[inline(never)]
pub fn paper_write_ccd(state: &[u16], shown: Shown, readings: &[u16], block: &mut [u16]) -> u32 {
    let Ok(readings) = <&[u16; CCD_READINGS]>::try_from(readings) else {
        return WRONG_LENGTH;
    };
    if block.len() != CCD_LENGTH {
        return WRONG_LENGTH;
    }
    let Some(state) = load(state) else {
        return STATE_REFUSED;
    };
    let flags = flags(shown.flags);
    let (ended, latch_up) = (shown.ended == 1, bit(shown.bits, 0));
    u32::from(paper::write_ccd(
        &state, &flags, ended, readings, latch_up, block,
    ))
}

#[no_mangle]
#[inline(never)]
pub fn paper_read_ir(block: &[u16], meaning: &mut [u16]) -> u32 {
    let Ok(meaning) = <&mut [u16; IR_MEANING_LENGTH]>::try_from(meaning) else {
        return WRONG_LENGTH;
    };
    match paper::read_ir(block) {
        Ok(read) => {
            store_ir(&read, meaning);
            0
        }
        Err(refusal) => refused(refusal),
    }
}

#[no_mangle]
#[inline(never)]
pub fn paper_read_ccd(block: &[u16], meaning: &mut [u16]) -> u32 {
    let Ok(meaning) = <&mut [u16; CCD_MEANING_LENGTH]>::try_from(meaning) else {
        return WRONG_LENGTH;
    };
    match paper::read_ccd(block) {
        Ok(read) => {
            store_ccd(&read, meaning);
            0
        }
        Err(refusal) => refused(refusal),
    }
}

fn refused(refusal: BlockRefusal) -> u32 {
    u32::from(refusal.number) | (refusal.place as u32) << 8
}

fn store_ir(read: &IrMeaning, meaning: &mut [u16; IR_MEANING_LENGTH]) {
    let (readings, rest) = meaning.split_at_mut(IR_READINGS);
    readings.copy_from_slice(&read.readings);
    rest.copy_from_slice(&[
        read.window_mode,
        read.delay,
        read.expo,
        read.lamp_current,
        read.lamp_on.into(),
        read.shutter_current,
        read.shutter_closed.into(),
        read.after_acquisition.into(),
        read.time_error.into(),
        read.word_error.into(),
        read.scan_error.into(),
        read.detector_on.into(),
        read.latch_up.into(),
        read.annealing_on.into(),
        read.cover_opens.into(),
        read.not_closed.into(),
        read.not_open.into(),
    ]);
}

fn store_ccd(read: &CcdMeaning, meaning: &mut [u16; CCD_MEANING_LENGTH]) {
    let (readings, rest) = meaning.split_at_mut(CCD_READINGS);
    readings.copy_from_slice(&read.readings);
    rest.copy_from_slice(&[
        read.x1,
        read.y1,
        read.x2,
        read.y2,
        read.delay,
        read.expo,
        read.sine_magnitude,
        read.sine_negative.into(),
        read.cosine,
        read.after_acquisition.into(),
        read.time_error.into(),
        read.word_error.into(),
        read.latch_up.into(),
        read.lamp_on.into(),
    ]);
}

fn flags(bits: u32) -> ErrorFlags {
    ErrorFlags {
        ir_time: bit(bits, 0),
        ir_word: bit(bits, 1),
        ir_scan: bit(bits, 2),
        vis_time: bit(bits, 3),
        vis_word: bit(bits, 4),
    }
}

fn bit(bits: u32, place: u32) -> bool {
    bits >> place & 1 == 1
}
