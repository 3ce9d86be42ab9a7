//! The two housekeeping blocks, written and read.

use crate::state::{in_range, ErrorFlags, State, LEAST_CCD_DELAY};

/// Words in an IR block.
pub const IR_LENGTH: usize = 20;
/// Words in a CCD block.
pub const CCD_LENGTH: usize = 25;
/// Readings at the head of an IR block.
pub const IR_READINGS: usize = 14;
/// Readings at the head of a CCD block.
pub const CCD_READINGS: usize = 16;

const WRITTEN: u16 = 0;
const WRONG_LENGTH: u16 = 11;
const FIXED_BIT_WRONG: u16 = 12;
const VALUE_OUT_OF_RANGE: u16 = 13;
const STATE_OUT_OF_RANGE: u16 = 21;

/// First and last line of the IR window, by window mode.
const IR_LINES: [(u16, u16); 2] = [(0, 269), (90, 179)];

const MOST_9_BITS: u16 = 511;
const MOST_10_BITS: u16 = 1023;
const MOST_12_BITS: u16 = 4095;

/// Bits that may be set in the words that have fixed bits.
const LAMP_SHUTTER_BITS: u16 = 0b0001_1111_0001_1111;
const SINE_BITS: u16 = 0b0001_1111_1111_1111;
const IR_FLAG_BITS: u16 = 0b0111_0010_0111_1111;
const VIS_FLAG_BITS: u16 = 0b0000_0001_0001_1111;
/// Bit 1 of both flag words is always set.
const ALWAYS_SET: u16 = 1 << 1;

/// The bits of the IR flag word that the caller supplies.
#[derive(Clone, Copy, Debug, Default, PartialEq, Eq)]
pub struct IrCallerBits {
    pub latch_up: bool,
    /// Bit 13.
    pub not_closed: bool,
    /// Bit 14.
    pub not_open: bool,
}

/// What an IR block says.
#[derive(Clone, Copy, Debug, PartialEq, Eq)]
pub struct IrMeaning {
    pub readings: [u16; IR_READINGS],
    /// 0 full, 1 reduced.
    pub window_mode: u16,
    pub delay: u16,
    pub expo: u16,
    pub lamp_current: u16,
    pub lamp_on: bool,
    pub shutter_current: u16,
    pub shutter_closed: bool,
    pub after_acquisition: bool,
    pub time_error: bool,
    pub word_error: bool,
    pub scan_error: bool,
    pub detector_on: bool,
    pub latch_up: bool,
    pub annealing_on: bool,
    /// True when the last cover word opened.
    pub cover_opens: bool,
    pub not_closed: bool,
    pub not_open: bool,
}

/// What a CCD block says.
#[derive(Clone, Copy, Debug, PartialEq, Eq)]
pub struct CcdMeaning {
    pub readings: [u16; CCD_READINGS],
    pub x1: u16,
    pub y1: u16,
    pub x2: u16,
    pub y2: u16,
    pub delay: u16,
    pub expo: u16,
    pub sine_negative: bool,
    pub sine_magnitude: u16,
    pub cosine: u16,
    pub after_acquisition: bool,
    pub time_error: bool,
    pub word_error: bool,
    pub latch_up: bool,
    pub lamp_on: bool,
}

/// Why and where a block is refused by its reader.
#[derive(Clone, Copy, Debug, PartialEq, Eq)]
pub struct BlockRefusal {
    /// 11, 12 or 13.
    pub number: u16,
    /// Index of the faulty word; 0 for 11.
    pub place: usize,
}

/// Writes the IR block: 0 if written, else 11 or 21 and the buffer is left.
pub fn write_ir(
    state: &State,
    flags: &ErrorFlags,
    acquisition_ended: bool,
    readings: &[u16; IR_READINGS],
    caller: IrCallerBits,
    buffer: &mut [u16],
) -> u16 {
    let Ok(block) = <&mut [u16; IR_LENGTH]>::try_from(buffer) else {
        return WRONG_LENGTH;
    };
    if !in_range(state) {
        return STATE_OUT_OF_RANGE;
    }
    let settings = &state.settings;
    let (y1, y2) = IR_LINES[usize::from(settings.window_mode != 0)];
    block[..IR_READINGS].copy_from_slice(readings);
    block[14] = y1;
    block[15] = y2;
    block[16] = settings.ir_delay;
    block[17] = settings.ir_expo;
    block[18] = lamp_and_shutter(settings.ir_lamp, settings.shutter);
    block[19] = ir_flags(state, flags, acquisition_ended, caller);
    WRITTEN
}

/// Writes the CCD block: 0 if written, else 11 or 21 and the buffer is left.
pub fn write_ccd(
    state: &State,
    flags: &ErrorFlags,
    acquisition_ended: bool,
    readings: &[u16; CCD_READINGS],
    latch_up: bool,
    buffer: &mut [u16],
) -> u16 {
    let Ok(block) = <&mut [u16; CCD_LENGTH]>::try_from(buffer) else {
        return WRONG_LENGTH;
    };
    if !in_range(state) {
        return STATE_OUT_OF_RANGE;
    }
    let settings = &state.settings;
    block[..CCD_READINGS].copy_from_slice(readings);
    block[16] = settings.x1;
    block[17] = settings.y1;
    block[18] = settings.x2;
    block[19] = settings.y2;
    block[20] = settings.ccd_delay;
    block[21] = settings.ccd_expo;
    block[22] = settings.sine;
    block[23] = settings.cosine;
    block[24] = vis_flags(state, flags, acquisition_ended, latch_up);
    WRITTEN
}

/// Reads an IR block.
pub fn read_ir(block: &[u16]) -> Result<IrMeaning, BlockRefusal> {
    let block = sized::<IR_LENGTH>(block)?;
    check_ir_words(block)?;
    let [.., y1, _, delay, expo, lamp_shutter, flags] = *block;
    Ok(IrMeaning {
        readings: first(block),
        window_mode: u16::from(y1 != IR_LINES[0].0),
        delay,
        expo,
        lamp_current: lamp_shutter & 0xF,
        lamp_on: bit(lamp_shutter, 4),
        shutter_current: lamp_shutter >> 8 & 0xF,
        shutter_closed: bit(lamp_shutter, 12),
        after_acquisition: bit(flags, 0),
        time_error: bit(flags, 2),
        word_error: bit(flags, 3),
        scan_error: bit(flags, 4),
        detector_on: bit(flags, 5),
        latch_up: bit(flags, 6),
        annealing_on: bit(flags, 9),
        cover_opens: bit(flags, 12),
        not_closed: bit(flags, 13),
        not_open: bit(flags, 14),
    })
}

/// Reads a CCD block.
pub fn read_ccd(block: &[u16]) -> Result<CcdMeaning, BlockRefusal> {
    let block = sized::<CCD_LENGTH>(block)?;
    check_ccd_words(block)?;
    let [.., x1, y1, x2, y2, delay, expo, sine, cosine, flags] = *block;
    Ok(CcdMeaning {
        readings: first(block),
        x1,
        y1,
        x2,
        y2,
        delay,
        expo,
        sine_negative: bit(sine, 12),
        sine_magnitude: sine & MOST_12_BITS,
        cosine,
        after_acquisition: bit(flags, 0),
        time_error: bit(flags, 2),
        word_error: bit(flags, 3),
        latch_up: bit(flags, 4),
        lamp_on: bit(flags, 8),
    })
}

fn lamp_and_shutter(lamp: u16, shutter: u16) -> u16 {
    current_and_on(lamp) | current_and_on(shutter) << 8
}

/// A data field holds on in bit 0 and the current above; the block holds the
/// current in bits 0-3 and on in bit 4.
fn current_and_on(field: u16) -> u16 {
    field >> 1 | (field & 1) << 4
}

fn ir_flags(
    state: &State,
    flags: &ErrorFlags,
    acquisition_ended: bool,
    caller: IrCallerBits,
) -> u16 {
    let settings = &state.settings;
    ALWAYS_SET
        | u16::from(acquisition_ended)
        | u16::from(flags.ir_time) << 2
        | u16::from(flags.ir_word) << 3
        | u16::from(flags.ir_scan) << 4
        | settings.detector << 5
        | u16::from(caller.latch_up) << 6
        | (settings.annealing & 1) << 9
        | settings.cover_direction << 12
        | u16::from(caller.not_closed) << 13
        | u16::from(caller.not_open) << 14
}

fn vis_flags(state: &State, flags: &ErrorFlags, acquisition_ended: bool, latch_up: bool) -> u16 {
    ALWAYS_SET
        | u16::from(acquisition_ended)
        | u16::from(flags.vis_time) << 2
        | u16::from(flags.vis_word) << 3
        | u16::from(latch_up) << 4
        | (state.settings.ccd_lamp & 1) << 8
}

fn check_ir_words(block: &[u16; IR_LENGTH]) -> Result<(), BlockRefusal> {
    if !IR_LINES.contains(&(block[14], block[15])) {
        return refuse(VALUE_OUT_OF_RANGE, 15);
    }
    check_range(block, 16, 0, MOST_10_BITS)?;
    check_range(block, 17, 0, MOST_10_BITS)?;
    check_bits(block, 18, LAMP_SHUTTER_BITS, 0)?;
    check_bits(block, 19, IR_FLAG_BITS, ALWAYS_SET)
}

fn check_ccd_words(block: &[u16; CCD_LENGTH]) -> Result<(), BlockRefusal> {
    check_range(block, 16, 0, MOST_10_BITS)?;
    check_range(block, 17, 0, MOST_9_BITS)?;
    check_range(block, 18, 0, MOST_10_BITS)?;
    check_range(block, 19, 0, MOST_9_BITS)?;
    check_range(block, 20, LEAST_CCD_DELAY, MOST_10_BITS)?;
    check_range(block, 21, 0, MOST_10_BITS)?;
    check_bits(block, 22, SINE_BITS, 0)?;
    check_range(block, 23, 0, MOST_12_BITS)?;
    check_bits(block, 24, VIS_FLAG_BITS, ALWAYS_SET)
}

fn check_range<const N: usize>(
    block: &[u16; N],
    place: usize,
    least: u16,
    most: u16,
) -> Result<(), BlockRefusal> {
    if (least..=most).contains(&block[place]) {
        return Ok(());
    }
    refuse(VALUE_OUT_OF_RANGE, place)
}

/// Only the `free` bits may be set, and the `fixed` ones must be.
fn check_bits<const N: usize>(
    block: &[u16; N],
    place: usize,
    free: u16,
    fixed: u16,
) -> Result<(), BlockRefusal> {
    if block[place] & !free == 0 && block[place] & fixed == fixed {
        return Ok(());
    }
    refuse(FIXED_BIT_WRONG, place)
}

fn sized<const N: usize>(block: &[u16]) -> Result<&[u16; N], BlockRefusal> {
    block.try_into().or(refuse(WRONG_LENGTH, 0))
}

fn refuse<T>(number: u16, place: usize) -> Result<T, BlockRefusal> {
    Err(BlockRefusal { number, place })
}

/// The first `N` words of a block that has at least as many.
fn first<const N: usize>(block: &[u16]) -> [u16; N] {
    let mut words = [0; N];
    words.copy_from_slice(&block[..N]);
    words
}

fn bit(word: u16, place: u32) -> bool {
    word >> place & 1 == 1
}
