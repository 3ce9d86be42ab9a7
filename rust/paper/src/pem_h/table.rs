//! The table of requests: each word as document 000 draws it.

use std::iter::repeat_n;

/// How many requests the table has.
pub const REQUEST_COUNT: usize = 32;

const CODE_BITS: usize = 6;
const WORD_BITS: usize = 16;

/// A row of the table: a request's name, code and parameter. A letter stands
/// for a bit that may be 0 or 1.
pub struct Row {
    name: &'static str,
    code: &'static str,
    parameter: &'static str,
}

const fn row(name: &'static str, code: &'static str, parameter: &'static str) -> Row {
    Row {
        name,
        code,
        parameter,
    }
}

/// Every row, a request's number being its place. HRESYNC's code is drawn one
/// bit short.
pub const TABLE: [Row; REQUEST_COUNT] = [
    row("HSET_Bias", "001000", "00 vvvv vvvv"),
    row("HSET_I_Lamp_Spect_T", "001001", "00 vvvv vvvv"),
    row("HSET_I_Lamp_Spect_S", "001001", "00 vvvv vvvv"),
    row("HSET_I_Lamp_Radio", "001001", "00 vvvv vvvv"),
    row("HSET_I_Shutter", "001010", "00 vvvv vvvv"),
    row("HSET_Int_Num1", "010100", "vv vvvv vvvv"),
    row("HSET_Int_Num2", "010101", "00 vvvv vvvv"),
    row("HINIT_Pix_Map_Upld", "001110", "00 0000 0000"),
    row("HINIT_Pix_Map_Dnld", "001110", "00 0000 0000"),
    row("HSET_Pix_Map_Data", "001100", "00 vvvv vvvv"),
    row("HDNLD_Pix_Map_Data", "001101", "00 0000 0000"),
    row("HSET_PEM_Mode", "011010", "00 0000 00 BB"),
    row("HNOP", "000000", "00 0000 0000"),
    row("HSTART_S", "000001", "00 0000 0000"),
    row("HSTART_HK", "000010", "00 0000 0000"),
    row("HSTOP_Readout", "000011", "00 0000 0000"),
    row("HRESYNC", "00100", "00 0000 0000"),
    row("HSET_Det/On", "010001", "00 0000 0001"),
    row("HSET_Det/Off", "010001", "00 0000 0000"),
    row("HSET_Shutter/On", "011011", "00 0000 0001"),
    row("HSET_Shutter/Off", "011011", "00 0000 0000"),
    row("HSET_Shutter_Status", "011111", "00 0000 000B"),
    row("HSET_FPA_Htr/On", "011100", "00 0000 0001"),
    row("HSET_FPA_Htr/Off", "011100", "00 0000 0000"),
    row("HSET_Lamp_Spect_T/On", "011101", "00 0000 0001"),
    row("HSET_Lamp_Spect_S/On", "011101", "00 0000 0010"),
    row("HSET_Lamp_Radio/On", "011101", "00 0000 0100"),
    row("HSET_Cal/Off", "011101", "00 0000 0000"),
    row("HSET_Det_Temp/On", "011110", "00 0000 0001"),
    row("HSET_Det_Temp/Off", "011110", "00 0000 0000"),
    row("HSET_Cover", "010010", "VV VVVV VSTD"),
    row("HSET_Test_Init", "010011", "VV VVVV VVVV"),
];

/// Document 000's name of the request with this number, if there is one.
pub fn name(request: u8) -> Option<&'static str> {
    TABLE.get(usize::from(request)).map(|row| row.name)
}

impl Row {
    /// The sixteen bits as they are drawn, the top one first. A bit that is
    /// missing from the code is a 0 after the last one drawn (house).
    fn drawn(&self) -> impl Iterator<Item = char> {
        let missing = repeat_n('0', CODE_BITS - self.code.len());
        let parameter = self.parameter.chars().filter(|&bit| bit != ' ');
        self.code.chars().chain(missing).chain(parameter)
    }

    /// Whether the word's code is this row's.
    pub fn has_code_of(&self, word: u16) -> bool {
        let mut code = self.drawn().zip(bits(word)).take(CODE_BITS);
        code.all(|(drawn, bit)| allows(drawn, bit))
    }

    /// Whether the word is one that the row draws.
    pub fn has(&self, word: u16) -> bool {
        let mut drawn = self.drawn().zip(bits(word));
        drawn.all(|(drawn, bit)| allows(drawn, bit))
    }

    /// The drawing with the value's bits in the place of letters.
    pub fn filled(&self, value: u16) -> u16 {
        let bits = self.drawn().zip(bits(value));
        bits.fold(0, |word, (drawn, bit)| word << 1 | filled(drawn, bit))
    }
}

/// The bits of a word, the top one first.
fn bits(word: u16) -> impl Iterator<Item = u16> {
    (0..WORD_BITS).rev().map(move |place| word >> place & 1)
}

fn allows(drawn: char, bit: u16) -> bool {
    match drawn {
        '0' => bit == 0,
        '1' => bit == 1,
        _ => true,
    }
}

fn filled(drawn: char, bit: u16) -> u16 {
    match drawn {
        '0' => 0,
        '1' => 1,
        _ => bit,
    }
}
