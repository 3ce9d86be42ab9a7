//! Merging two lists in plain Rust, behind the library's interface.
//!
//! `paper` filters and sorts. This judges both lists, goes through them once to
//! see how much is merged, and once more to write it, as the library does.

use shabgozim::raw::Merged;

const NOT_RISING: u32 = 52;
const SAME_TICK: u32 = 53;
const NO_ROOM: u32 = 54;
const CCD: u32 = 0;
const INFRARED: u32 = 1;

#[no_mangle]
#[inline(never)]
pub fn plain_merge(ccd: &[u64], infrared: &[u64], merged: &mut [u64]) -> Merged {
    match counted(ccd, infrared, merged.len()) {
        Ok((n, m)) => {
            write(&ccd[..n], &infrared[..m], &mut merged[..n + m]);
            let of_ccd = n < ccd.len();
            Merged {
                number: 0,
                rest_of: if of_ccd { CCD } else { INFRARED },
                count: n + m,
                rest_start: if of_ccd { n } else { m },
            }
        }
        Err(number) => Merged {
            number,
            rest_of: INFRARED,
            count: 0,
            rest_start: infrared.len(),
        },
    }
}

/// How many entries of each list are merged, or why none is.
fn counted(ccd: &[u64], infrared: &[u64], room: usize) -> Result<(usize, usize), u32> {
    if !rises(ccd) || !rises(infrared) {
        return Err(NOT_RISING);
    }
    let (mut i, mut j) = (0, 0);
    while i < ccd.len() && j < infrared.len() {
        let (first, second) = (tick(ccd[i]), tick(infrared[j]));
        if first == second {
            return Err(SAME_TICK);
        }
        if first < second {
            i += 1;
        } else {
            j += 1;
        }
    }
    if room < i + j {
        return Err(NO_ROOM);
    }
    Ok((i, j))
}

fn write(ccd: &[u64], infrared: &[u64], merged: &mut [u64]) {
    let (mut i, mut j) = (0, 0);
    for place in merged {
        let from_ccd = j == infrared.len() || i < ccd.len() && ccd[i] < infrared[j];
        if from_ccd {
            *place = ccd[i];
            i += 1;
        } else {
            *place = infrared[j];
            j += 1;
        }
    }
}

fn rises(list: &[u64]) -> bool {
    list.windows(2).all(|pair| tick(pair[0]) < tick(pair[1]))
}

fn tick(entry: u64) -> u64 {
    entry >> 16
}
