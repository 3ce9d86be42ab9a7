//! The paper's functions with types of their own, which those of the wrapper
//! are compared with.

use paper::blocks::{CCD_READINGS, IR_READINGS};
use paper::pem_h;
use paper::{BlockRefusal, CcdMeaning, ErrorFlags, IrCallerBits, IrMeaning};
use paper::{BusyTicks, Merged, Observation, TextsRefusal, Tick};
use paper::{Inspection, Outcome, Refusal, State, TextList, TextRefusal, Ticked, Translated, Why};

#[derive(Clone, Copy)]
pub struct Typed {
    pub in_range: fn(&State) -> bool,
    pub receive: fn(&mut State, u16) -> Outcome,
    pub tick: fn(&mut State) -> Ticked,
    pub list: fn(&mut State, &[u16], &[u32], &mut [u16]) -> u16,
    pub translate: fn(&State, &[u8], &mut [u16], &mut [u32]) -> Translated,
    pub report: fn(&mut State, &[u8]) -> Result<String, Refusal>,
    pub read_list: fn(&[u8]) -> Result<TextList, TextRefusal>,
    pub inspection: fn(&[u16], &[u32]) -> Result<Inspection, u16>,
    pub write_ir: WriteIr,
    pub write_ccd: WriteCcd,
    pub read_ir: fn(&[u16]) -> Result<IrMeaning, BlockRefusal>,
    pub read_ccd: fn(&[u16]) -> Result<CcdMeaning, BlockRefusal>,
    pub h_decode: fn(u16) -> Result<pem_h::Read, pem_h::Refusal>,
    pub h_encode: fn(u8, u16) -> Result<u16, pem_h::Refusal>,
    pub h_map: fn(&[u8]) -> Result<pem_h::PixelMap, pem_h::Refusal>,
    pub group: fn(u8) -> u8,
    pub pass_on: fn(&mut State, u8, u16) -> u16,
    pub observe: fn(&State, &[Tick]) -> Observation,
    pub busy_ticks: fn(&State, &[Tick]) -> BusyTicks,
    pub merge: Merge,
    pub merge_texts: MergeTexts,
    pub operator_refusal: fn(u8) -> Option<Vec<u8>>,
    pub why: fn(&State, u16) -> Why,
    pub why_answer: fn(Why) -> u32,
    pub explanation: fn(u32) -> Option<String>,
}

pub type Merge = fn(&[u64], &[u64], usize) -> Result<Merged, u8>;
pub type MergeTexts = fn(&[u8], &[u8]) -> Result<Vec<u8>, TextsRefusal>;
pub type WriteIr =
    fn(&State, &ErrorFlags, bool, &[u16; IR_READINGS], IrCallerBits, &mut [u16]) -> u16;
pub type WriteCcd = fn(&State, &ErrorFlags, bool, &[u16; CCD_READINGS], bool, &mut [u16]) -> u16;

impl Typed {
    pub const PAPER: Typed = Typed {
        in_range: paper::in_range,
        receive: paper::receive,
        tick: paper::tick,
        list: paper::list,
        translate: paper::translate,
        report: paper::report,
        read_list: paper::read_list,
        inspection: paper::inspection,
        write_ir: paper::write_ir,
        write_ccd: paper::write_ccd,
        read_ir: paper::read_ir,
        read_ccd: paper::read_ccd,
        h_decode: pem_h::decode,
        h_encode: pem_h::encode,
        h_map: pem_h::PixelMap::of,
        group: paper::group_number,
        pass_on: paper::pass_on,
        observe: paper::observe,
        busy_ticks: paper::busy_ticks,
        merge: paper::merge,
        merge_texts: paper::merge_texts,
        operator_refusal: paper::operator_refusal,
        why: paper::why,
        why_answer: paper::why_answer,
        explanation: paper::explanation,
    };
}
