//! The two housekeeping blocks, written and read.

use crate::raw;
use crate::state::{ErrorFlags, State};

/// Words in an IR block.
pub const IR_LENGTH: usize = 20;
/// Words in a CCD block.
pub const CCD_LENGTH: usize = 25;
/// Readings at the start of an IR block.
pub const IR_READINGS: usize = 14;
/// Readings at the start of a CCD block.
pub const CCD_READINGS: usize = 16;
/// Numbers that reading an IR block gives.
pub const IR_MEANING_LENGTH: usize = IR_READINGS + 17;
/// Numbers that reading a CCD block gives.
pub const CCD_MEANING_LENGTH: usize = CCD_READINGS + 14;

/// What the caller supplies for an IR block.
#[derive(Clone, Copy, Debug, Default, PartialEq, Eq)]
pub struct IrInputs {
    pub readings: [u16; IR_READINGS],
    pub latch_up: bool,
    pub not_closed: bool,
    pub not_open: bool,
}

/// What the caller supplies for a CCD block.
#[derive(Clone, Copy, Debug, Default, PartialEq, Eq)]
pub struct CcdInputs {
    pub readings: [u16; CCD_READINGS],
    pub latch_up: bool,
}

/// What an IR block says.
#[derive(Clone, Copy, Debug, PartialEq, Eq)]
pub struct IrMeaning {
    pub readings: [u16; IR_READINGS],
    /// 0 full, 1 reduced.
    pub window_mode: u16,
    pub delay: u16,
    pub expo: u16,
    pub lamp_current: u16,
    pub lamp_on: bool,
    pub shutter_current: u16,
    pub shutter_closed: bool,
    pub after_acquisition: bool,
    pub time_error: bool,
    pub word_error: bool,
    pub scan_error: bool,
    pub detector_on: bool,
    pub latch_up: bool,
    pub annealing_on: bool,
    /// The last cover move opens.
    pub cover_opens: bool,
    pub not_closed: bool,
    pub not_open: bool,
}

/// What a CCD block says.
#[derive(Clone, Copy, Debug, PartialEq, Eq)]
pub struct CcdMeaning {
    pub readings: [u16; CCD_READINGS],
    pub x1: u16,
    pub y1: u16,
    pub x2: u16,
    pub y2: u16,
    pub delay: u16,
    pub expo: u16,
    pub sine_magnitude: u16,
    pub sine_negative: bool,
    pub cosine: u16,
    pub after_acquisition: bool,
    pub time_error: bool,
    pub word_error: bool,
    pub latch_up: bool,
    pub lamp_on: bool,
}

/// Why and where a block is refused.
#[derive(Clone, Copy, Debug, PartialEq, Eq)]
pub struct BlockRefusal {
    /// Document 01's number: 11, 12, 13 or 21.
    pub number: u8,
    /// Index of the faulty word; 0 for 11 and 21.
    pub place: usize,
}

/// The IR block of a state, showing the given flags.
pub fn write_ir(
    state: &State,
    flags: ErrorFlags,
    after_acquisition: bool,
    inputs: &IrInputs,
) -> Result<[u16; IR_LENGTH], BlockRefusal> {
    let bits = u32::from(inputs.latch_up)
        | u32::from(inputs.not_closed) << 1
        | u32::from(inputs.not_open) << 2;
    let mut block = [0; IR_LENGTH];
    let answer = raw::write_ir(
        &state.numbers,
        flags.bits(),
        u32::from(after_acquisition),
        bits,
        &inputs.readings,
        &mut block,
    );
    accepted(answer).map(|()| block)
}

/// The CCD block of a state, showing the given flags.
pub fn write_ccd(
    state: &State,
    flags: ErrorFlags,
    after_acquisition: bool,
    inputs: &CcdInputs,
) -> Result<[u16; CCD_LENGTH], BlockRefusal> {
    let mut block = [0; CCD_LENGTH];
    let answer = raw::write_ccd(
        &state.numbers,
        flags.bits(),
        u32::from(after_acquisition),
        u32::from(inputs.latch_up),
        &inputs.readings,
        &mut block,
    );
    accepted(answer).map(|()| block)
}

/// Reads an IR block.
pub fn read_ir(block: &[u16]) -> Result<IrMeaning, BlockRefusal> {
    let mut numbers = [0; IR_MEANING_LENGTH];
    accepted(raw::read_ir(block, &mut numbers))?;
    let mut numbers = Numbers(&numbers);
    Ok(IrMeaning {
        readings: numbers.readings(),
        window_mode: numbers.next(),
        delay: numbers.next(),
        expo: numbers.next(),
        lamp_current: numbers.next(),
        lamp_on: numbers.bit(),
        shutter_current: numbers.next(),
        shutter_closed: numbers.bit(),
        after_acquisition: numbers.bit(),
        time_error: numbers.bit(),
        word_error: numbers.bit(),
        scan_error: numbers.bit(),
        detector_on: numbers.bit(),
        latch_up: numbers.bit(),
        annealing_on: numbers.bit(),
        cover_opens: numbers.bit(),
        not_closed: numbers.bit(),
        not_open: numbers.bit(),
    })
}

/// Reads a CCD block.
pub fn read_ccd(block: &[u16]) -> Result<CcdMeaning, BlockRefusal> {
    let mut numbers = [0; CCD_MEANING_LENGTH];
    accepted(raw::read_ccd(block, &mut numbers))?;
    let mut numbers = Numbers(&numbers);
    Ok(CcdMeaning {
        readings: numbers.readings(),
        x1: numbers.next(),
        y1: numbers.next(),
        x2: numbers.next(),
        y2: numbers.next(),
        delay: numbers.next(),
        expo: numbers.next(),
        sine_magnitude: numbers.next(),
        sine_negative: numbers.bit(),
        cosine: numbers.next(),
        after_acquisition: numbers.bit(),
        time_error: numbers.bit(),
        word_error: numbers.bit(),
        latch_up: numbers.bit(),
        lamp_on: numbers.bit(),
    })
}

fn accepted(answer: u32) -> Result<(), BlockRefusal> {
    match answer as u8 {
        0 => Ok(()),
        number => Err(BlockRefusal {
            number,
            place: (answer >> 8) as usize,
        }),
    }
}

/// The numbers of a meaning, taken one after another.
struct Numbers<'a>(&'a [u16]);

impl Numbers<'_> {
    fn readings<const N: usize>(&mut self) -> [u16; N] {
        std::array::from_fn(|_| self.next())
    }

    fn next(&mut self) -> u16 {
        let number = self.0[0];
        self.0 = &self.0[1..];
        number
    }

    fn bit(&mut self) -> bool {
        self.next() == 1
    }
}
