//! Faults in the refusals of operators' words and lists in words, and in what is
//! unpacked of the answers about them.

use crate::fault::Fault;
use compare::sides::{Library, Paper, Side};
use paper::{Merged, State, TextsRefusal};

const REFUSALS: &str = "operator refusals in words";
const UNPACKED: &str = "operator unpacked answers";

pub const FAULTS: &[Fault] = &[
    Fault {
        name: "53 is told for 52",
        put: |sides| sides.paper.operator_refusal = tells_53_for_52,
        part: REFUSALS,
        is_reduced: |text| text.starts_with("operator refusal 52, text: every place\n"),
    },
    Fault {
        name: "55 is told",
        put: |sides| sides.paper.operator_refusal = tells_55,
        part: REFUSALS,
        is_reduced: |text| text.starts_with("operator refusal 55, text: every place\n"),
    },
    Fault {
        name: "50 is told",
        put: |sides| sides.library.operator_refusal = tells_50,
        part: REFUSALS,
        is_reduced: |text| text.starts_with("operator refusal 50, text: every place\n"),
    },
    Fault {
        name: "a line is begun where there is no room for it",
        put: |sides| sides.paper.operator_refusal = begins_without_room,
        part: REFUSALS,
        is_reduced: |text| {
            text == "operator refusal 51, text: the places needed -1\n\
                     text[0]: library 0xBB, paper 0x72"
        },
    },
    Fault {
        name: "just enough room is taken for too little",
        put: |sides| sides.paper.operator_refusal = refuses_just_enough,
        part: REFUSALS,
        is_reduced: |text| text.starts_with("operator refusal 51, text: the places needed +0\n"),
    },
    Fault {
        name: "room without the newline is taken for enough",
        put: |sides| sides.library.operator_refusal = leaves_newline_out,
        part: REFUSALS,
        is_reduced: |text| text.starts_with("operator refusal 51, text: the places needed -1\n"),
    },
    Fault {
        name: "a byte past the line is written",
        put: |sides| sides.paper.operator_refusal = writes_past_line,
        part: REFUSALS,
        is_reduced: |text| text.starts_with("operator refusal 51, text: every place\ntext["),
    },
    Fault {
        name: "the kind after the last has a group",
        put: |sides| sides.typed.group = kind_28_has_group,
        part: UNPACKED,
        is_reduced: |text| text == "unpacked, group of kind 28\nlibrary None\npaper Some(1)",
    },
    Fault {
        name: "a word that is not passed on is told as ignored",
        put: |sides| sides.typed.pass_on = ignored_for_not_passed,
        part: UNPACKED,
        is_reduced: |text| text.starts_with("unpacked, word "),
    },
    Fault {
        name: "the rest is told of the other list",
        put: |sides| sides.typed.merge = rest_of_the_other,
        part: UNPACKED,
        is_reduced: |text| text.starts_with("unpacked, CCD list"),
    },
    Fault {
        name: "too little room is told as no list",
        put: |sides| sides.typed.merge = no_room_as_not_rising,
        part: UNPACKED,
        is_reduced: |text| text.starts_with("unpacked, CCD list"),
    },
    Fault {
        name: "a text's refusal is told of the other text",
        put: |sides| sides.typed.merge_texts = refuses_the_other,
        part: UNPACKED,
        is_reduced: |text| text.starts_with("unpacked, \""),
    },
    Fault {
        name: "the same tick is told in other words",
        put: |sides| sides.typed.operator_refusal = same_tick_in_other_words,
        part: UNPACKED,
        is_reduced: |text| text.starts_with("unpacked, ") && text.ends_with(" twice\"))"),
    },
];

fn tells_53_for_52(number: u8, text: &mut [u8]) -> u32 {
    match number {
        52 => Paper::operator_refusal(53, text),
        _ => Paper::operator_refusal(number, text),
    }
}

fn tells_55(number: u8, text: &mut [u8]) -> u32 {
    match number {
        55 => Paper::operator_refusal(54, text),
        _ => Paper::operator_refusal(number, text),
    }
}

fn tells_50(number: u8, text: &mut [u8]) -> u32 {
    match number {
        50 => Library::operator_refusal(51, text),
        _ => Library::operator_refusal(number, text),
    }
}

fn begins_without_room(number: u8, text: &mut [u8]) -> u32 {
    let answer = Paper::operator_refusal(number, text);
    if let (0, 51..=54, Some(first)) = (answer, number, text.first_mut()) {
        *first = b'r';
    }
    answer
}

fn refuses_just_enough(number: u8, text: &mut [u8]) -> u32 {
    match text {
        [places @ .., _] => Paper::operator_refusal(number, places),
        [] => 0,
    }
}

fn leaves_newline_out(number: u8, text: &mut [u8]) -> u32 {
    let mut longer = [&text[..], &[0]].concat();
    let answer = Library::operator_refusal(number, &mut longer);
    text.copy_from_slice(&longer[..text.len()]);
    answer.min(text.len() as u32)
}

fn writes_past_line(number: u8, text: &mut [u8]) -> u32 {
    let answer = Paper::operator_refusal(number, text);
    if let (1.., Some(next)) = (answer, text.get_mut(answer as usize)) {
        *next = 0;
    }
    answer
}

fn kind_28_has_group(kind: u8) -> u8 {
    match kind {
        28 => 1,
        _ => paper::group_number(kind),
    }
}

fn ignored_for_not_passed(state: &mut State, operator: u8, word: u16) -> u16 {
    match paper::pass_on(state, operator, word) {
        51 => 22,
        answer => answer,
    }
}

fn rest_of_the_other(ccd: &[u64], infrared: &[u64], room: usize) -> Result<Merged, u8> {
    let mut merged = paper::merge(ccd, infrared, room)?;
    merged.list = 1 - merged.list;
    merged.start = 0;
    Ok(merged)
}

fn no_room_as_not_rising(ccd: &[u64], infrared: &[u64], room: usize) -> Result<Merged, u8> {
    paper::merge(ccd, infrared, room).map_err(|number| match number {
        54 => 52,
        _ => number,
    })
}

fn refuses_the_other(ccd: &[u8], infrared: &[u8]) -> Result<Vec<u8>, TextsRefusal> {
    paper::merge_texts(ccd, infrared).map_err(|refused| match refused {
        TextsRefusal::Text { list, refusal } => TextsRefusal::Text {
            list: 1 - list,
            refusal,
        },
        TextsRefusal::SameTick => TextsRefusal::SameTick,
    })
}

fn same_tick_in_other_words(number: u8) -> Option<Vec<u8>> {
    match number {
        53 => Some(b"refused 53: a tick twice\n".to_vec()),
        _ => paper::operator_refusal(number),
    }
}
