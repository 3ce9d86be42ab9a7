//! The parts of the comparison, by name.

use crate::random::Random;
use crate::reduce::Counted;
use crate::sides::Sides;
use crate::{blocks, codec, demand3, diagnosis, inspections, limits, list_limits, listed_plans};
use crate::{lists, operators, pem_h, plans, refusals, reports, steps, text_lists};
use crate::{unpacked, upper_bytes};

pub type Compare = fn(&Sides, &mut Random, u32) -> Counted;

/// One part. It is given the sides, the source of its random inputs, and how
/// many times as many of them it makes.
#[derive(Clone, Copy)]
pub struct Part {
    pub name: &'static str,
    pub compare: Compare,
}

const fn part(name: &'static str, compare: Compare) -> Part {
    Part { name, compare }
}

/// Every part, in the order in which they run.
pub const PARTS: &[Part] = &[
    part("decode", codec::decode_all),
    part("decode by upper byte", codec::decode_all_by_byte),
    part("encode", codec::encode_all),
    part("words from states", steps::words_from_states),
    part("every number of a state", steps::every_number),
    part("state lengths", steps::state_lengths),
    part("runs of words and ticks", steps::runs),
    part("lists of timed words", lists::timed_words),
    part("lists at the limits", list_limits::lists),
    part("plan fields", plans::fields),
    part("plan forms", plans::forms),
    part("damaged plans", plans::damaged),
    part("plans, states, buffers", plans::mixed),
    part("plans at the limits", limits::plans),
    part("demand 3", demand3::random_plans),
    part("demand 3 at the limits", demand3::at_limits),
    part("reports", reports::reports),
    part("refusals in words", refusals::in_words),
    part("text lists", text_lists::texts),
    part("inspections", inspections::inspections),
    part("listed plans", listed_plans::plans),
    part("table of upper bytes", upper_bytes::table),
    part("blocks written", blocks::written),
    part("blocks read", blocks::read),
    part("block lengths", blocks::lengths),
    part("unpacked answers", unpacked::answers),
    part("PEM-H decode", pem_h::codec::decode_all),
    part("PEM-H encode", pem_h::codec::encode_all),
    part("pixel maps", pem_h::counts::counts),
    part("pixel map pictures", pem_h::pictures::pictures),
    part("PEM-H refusals", pem_h::refusals::in_words),
    part("PEM-H unpacked answers", pem_h::unpacked::answers),
    part("groups", operators::groups::groups),
    part("passing on", operators::passing::words),
    part("observation", operators::observation::runs),
    part("equal observations", operators::equal::pairs),
    part("merging", operators::merging::lists),
    part("merged texts", operators::merged_texts::texts),
    part("operator refusals in words", operators::refusals::in_words),
    part("operator unpacked answers", operators::unpacked::answers),
    part("why", diagnosis::why::words),
    part("why, by the head", diagnosis::by_head::words),
    part("explanations", diagnosis::explanations::lines),
    part("why, unpacked answers", diagnosis::unpacked::answers),
];
