//! Every trace length where one line more comes to fit: from 0 to 48 bytes, and around the limit of 65,536; each with sheets that end
//! next to the last line that fits.

use super::special::{counted, endless, straight, worked, After};
use crate::sim::run::{LINE, MAX_TRACE};
use crate::sim::sheet::Sheet;
use std::ops::RangeInclusive;

/// From no line to three, and from the last length with 4,094 lines to the first that would have 4,097.
const SHORT: RangeInclusive<usize> = 0..=3 * LINE;
const LONG: RangeInclusive<usize> = MAX_TRACE - LINE - 1..=MAX_TRACE + LINE;

/// Runs that end with no line to four, or never.
fn short_sheets() -> Vec<Sheet> {
    let ends = (0..=4).map(|steps| straight(steps, false));
    let refused = (0..=4).map(|steps| straight(steps, true));
    ends.chain(refused).chain([worked(), endless()]).collect()
}

/// Runs that end with 4,095 lines to 4,097, or never.
fn long_sheets() -> Vec<Sheet> {
    let ends = (4_095..=4_097).map(|steps| counted(steps, After::Ends));
    ends.chain([counted(4_096, After::Refused), counted(4_096, After::Elsewhere), endless()]).collect()
}

fn each(lengths: RangeInclusive<usize>, sheets: Vec<Sheet>) -> impl Iterator<Item = (Sheet, usize)> {
    sheets.into_iter().flat_map(move |sheet| lengths.clone().map(move |length| (sheet.clone(), length)))
}

/// Each length with each of its sheets.
pub fn all() -> Vec<(Sheet, usize)> {
    each(SHORT, short_sheets()).chain(each(LONG, long_sheets())).collect()
}
