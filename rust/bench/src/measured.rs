//! The workloads, each ready to run on either side.

use crate::plain_list::plain_list;
use crate::plain_map::{plain_h_lighted, plain_h_readout};
use crate::plain_merge::plain_merge;
use crate::workloads::{AskedWords, DecodedWords, Decoder, GivenWords, Lists, Maps, Merges};
use crate::workloads::{MixedRun, PassedWords, ReadBlocks, Ticks, Translations};
use crate::workloads::{Workload, WrittenBlocks};
use compare::blocks::Block;
use compare::sides::{Library, Paper, Side};
use shabgozim::{raw, MOST_WORDS};

/// One of the two implementations.
#[derive(Clone, Copy, PartialEq, Eq)]
pub enum Which {
    Library,
    Paper,
}

impl Which {
    pub const BOTH: [Which; 2] = [Which::Library, Which::Paper];

    pub fn name(self) -> &'static str {
        match self {
            Which::Library => "library",
            Which::Paper => "paper",
        }
    }
}

/// A row of the table. Inputs are made when they are needed and not before,
/// since some are made by the functions that are measured.
pub struct Row {
    pub name: &'static str,
    /// The functions, without their prefix.
    pub functions: &'static [&'static str],
    /// What the names of the functions begin with that stand for `paper`.
    paper_prefix: &'static str,
    /// How many words a call is given, where that is to be told.
    pub words: Option<usize>,
    pub prepare: fn() -> Prepared,
}

impl Row {
    const fn new(
        name: &'static str,
        functions: &'static [&'static str],
        prepare: fn() -> Prepared,
    ) -> Row {
        Row {
            name,
            functions,
            paper_prefix: "paper_",
            words: None,
            prepare,
        }
    }

    /// Full lists, against plain Rust.
    const fn lists(name: &'static str, prepare: fn() -> Prepared) -> Row {
        Row {
            paper_prefix: "plain_",
            words: Some(MOST_WORDS),
            ..Row::new(name, &["list"], prepare)
        }
    }

    /// Pixel maps and merging, against plain Rust.
    const fn plain(
        name: &'static str,
        functions: &'static [&'static str],
        prepare: fn() -> Prepared,
    ) -> Row {
        Row {
            paper_prefix: "plain_",
            ..Row::new(name, functions, prepare)
        }
    }

    /// What the names of a side's functions begin with.
    pub fn prefix(&self, which: Which) -> &'static str {
        match which {
            Which::Library => "shabgozim_",
            Which::Paper => self.paper_prefix,
        }
    }
}

/// A workload with its inputs.
pub struct Prepared {
    pub calls: usize,
    pass: Box<dyn FnMut(Which) -> u64>,
}

impl Prepared {
    fn of(mut workload: impl Workload + 'static) -> Prepared {
        Prepared {
            calls: workload.calls(),
            pass: Box::new(move |which| match which {
                Which::Library => workload.pass::<Library>(),
                Which::Paper => workload.pass::<Paper>(),
            }),
        }
    }

    /// Lists, which plain Rust is given in the place of `paper`.
    fn of_lists(mut lists: Lists) -> Prepared {
        Prepared {
            calls: lists.calls(),
            pass: Box::new(move |which| match which {
                Which::Library => lists.pass(Library::list),
                Which::Paper => lists.pass(plain_list),
            }),
        }
    }

    /// A measure of pixel maps, by the library and by plain Rust.
    fn of_maps(library: fn(&[u8]) -> u32, plain: fn(&[u8]) -> u32) -> Prepared {
        let maps = Maps::new();
        Prepared {
            calls: maps.calls(),
            pass: Box::new(move |which| match which {
                Which::Library => maps.pass(library),
                Which::Paper => maps.pass(plain),
            }),
        }
    }

    /// Merging, by the library and by plain Rust.
    fn of_merges(mut merges: Merges) -> Prepared {
        Prepared {
            calls: merges.calls(),
            pass: Box::new(move |which| match which {
                Which::Library => merges.pass(raw::merge),
                Which::Paper => merges.pass(plain_merge),
            }),
        }
    }

    /// Makes every call once; gives the sum of the answers.
    pub fn pass(&mut self, which: Which) -> u64 {
        (self.pass)(which)
    }
}

/// Everything that is measured.
pub const ROWS: &[Row] = &[
    Row::new("decode", &["decode"], || {
        Prepared::of(DecodedWords::new(Decoder::ByIdentifier))
    }),
    Row::new("decode by upper byte", &["decode_by_byte"], || {
        Prepared::of(DecodedWords::new(Decoder::ByUpperByte))
    }),
    Row::new("word", &["word"], || Prepared::of(GivenWords::new())),
    Row::new("word passed on", &["pass_on"], || {
        Prepared::of(PassedWords::new())
    }),
    Row::new("why a word did nothing", &["why"], || {
        Prepared::of(AskedWords::new())
    }),
    Row::new("tick", &["tick"], || Prepared::of(Ticks::new())),
    Row::new("words and ticks mixed", &["word", "tick"], || {
        Prepared::of(MixedRun::new())
    }),
    Row::lists("list of 256 words, gaps of 1 to 4 ticks", || {
        Prepared::of_lists(Lists::near())
    }),
    Row::lists("list of 256 words, gaps of 1 tick", || {
        Prepared::of_lists(Lists::by_gaps_of(1))
    }),
    Row::lists("list of 256 words, gaps of 5,000 ticks", || {
        Prepared::of_lists(Lists::by_gaps_of(5000))
    }),
    Row::lists("list of 256 words, gaps of 16,843,009 ticks", || {
        Prepared::of_lists(Lists::by_gaps_of(16_843_009))
    }),
    Row::new("translate 1 order", &["translate"], || {
        Prepared::of(Translations::every_code(1, 1))
    }),
    Row::new("translate 8 orders", &["translate"], || {
        Prepared::of(Translations::every_code(8, 1))
    }),
    Row::new(
        "translate 64 orders, waits of 1 tick",
        &["translate"],
        || Prepared::of(Translations::every_code(64, 1)),
    ),
    Row::new(
        "translate 64 orders, waits of 65,535 ticks",
        &["translate"],
        || Prepared::of(Translations::every_code(64, 65535)),
    ),
    Row::new(
        "translate 64 mirror orders (256 words)",
        &["translate"],
        || Prepared::of(Translations::most_words()),
    ),
    Row::new("write IR block", &["write_ir"], || {
        Prepared::of(WrittenBlocks::new(Block::Ir))
    }),
    Row::new("write CCD block", &["write_ccd"], || {
        Prepared::of(WrittenBlocks::new(Block::Ccd))
    }),
    Row::new("read IR block", &["read_ir"], || {
        Prepared::of(ReadBlocks::new(Block::Ir))
    }),
    Row::new("read CCD block", &["read_ccd"], || {
        Prepared::of(ReadBlocks::new(Block::Ccd))
    }),
    Row::plain("lighted pixels of a map", &["h_lighted"], || {
        Prepared::of_maps(raw::h_lighted, plain_h_lighted)
    }),
    Row::plain("readout time of a map", &["h_readout"], || {
        Prepared::of_maps(raw::h_readout, plain_h_readout)
    }),
    Row::plain("merge two lists of 256 entries", &["merge"], || {
        Prepared::of_merges(Merges::new())
    }),
];
