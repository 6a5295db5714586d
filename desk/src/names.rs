//! Names: made up from numbers where a sheet comes without any, written as lists with ranges, read from such lists.

use crate::sheet::{Counts, Kind};

/// The name of each linkage by its number; at 0 stands none's.
pub type Names = Vec<String>;

/// Names that carry the numbers of a trace: head1, main, process3, link4.
pub fn made_up(counts: Counts) -> Names {
    let name = |number: u32| match counts.kind(number) {
        Kind::None => "none".to_string(),
        Kind::Head => format!("head{number}"),
        Kind::Process if number == counts.main() => "main".to_string(),
        Kind::Process => format!("process{number}"),
        Kind::Link => format!("link{number}"),
    };
    (0..=counts.total()).map(name).collect()
}

/// A name cut before its last digits: crate, 1. The digits are none, or a number that fits.
pub fn cut(name: &str) -> Option<(&str, &str)> {
    let stem = name.trim_end_matches(|c: char| c.is_ascii_digit());
    let digits = &name[stem.len()..];
    (!digits.is_empty() && digits.len() <= 9).then_some((stem, digits))
}

/// Whether the second name is the one behind the first: crate9, crate10.
fn follows(a: &str, b: &str) -> bool {
    let (Some((stem, m)), Some((other, n))) = (cut(a), cut(b)) else { return false };
    let alike = if m.starts_with('0') { m.len() == n.len() } else { !n.starts_with('0') };
    stem == other && alike && m.parse::<u32>().is_ok_and(|m| n.parse() == Ok(m + 1))
}

/// Some names for a message, the first of them if they are many: 'crate1..crate40', 'box'.
pub fn quoted(names: &[String]) -> String {
    in_short(names, "'")
}

/// The same without quotes, as they stand before a body.
pub fn unquoted(names: &[String]) -> String {
    in_short(names, "")
}

fn in_short(names: &[String], quote: &str) -> String {
    let list = listed(names);
    let first: Vec<String> = list.iter().take(3).map(|item| format!("{quote}{item}{quote}")).collect();
    first.join(", ") + if list.len() > 3 { ", .." } else { "" }
}

/// The names as a list, three and more in a row as a range: main crate1..crate40.
pub fn listed(names: &[String]) -> Vec<String> {
    let mut list = Vec::new();
    let mut at = 0;
    while at < names.len() {
        let mut last = at;
        while last + 1 < names.len() && follows(&names[last], &names[last + 1]) {
            last += 1;
        }
        if last >= at + 2 {
            list.push(format!("{}..{}", names[at], names[last]));
            at = last + 1;
        } else {
            list.push(names[at].clone());
            at += 1;
        }
    }
    list
}

/// How many names a range has, or why it is none.
pub fn range_size(first: &str, last: &str) -> Result<u32, String> {
    let (Some((stem, low)), Some((other, high))) = (cut(first), cut(last)) else {
        let numbered = |name: &str| name.ends_with(|c: char| c.is_ascii_digit());
        let long = numbered(first) && numbered(last);
        let digits = "the numbers of a range have at most 9 digits";
        return Err(
            if long { digits } else { "both ends of a range end in a number, as in crate1..crate40" }.to_string()
        );
    };
    if stem != other {
        return Err(format!("both ends of a range begin alike: '{stem}' and '{other}' differ"));
    }
    if (low.starts_with('0') || high.starts_with('0')) && low.len() != high.len() {
        return Err("where a number begins with 0, both ends have as many digits".to_string());
    }
    let (low, high) = (low.parse::<u32>().unwrap_or(0), high.parse::<u32>().unwrap_or(0));
    if low > high {
        return Err(format!("a range goes up: {low} is above {high}"));
    }
    Ok(high - low + 1)
}

/// The names of a range, one after the other.
pub fn names_between(first: &str, last: &str) -> impl Iterator<Item = String> {
    let (stem, low) = cut(first).unwrap_or(("", ""));
    let width = if low.starts_with('0') { low.len() } else { 0 };
    let (stem, low) = (stem.to_string(), low.parse::<u32>().unwrap_or(0));
    let size = range_size(first, last).unwrap_or(0);
    (low..low + size).map(move |n| format!("{stem}{n:0width$}"))
}

/// All of them, where `range_size` says that they are not too many.
pub fn range_names(first: &str, last: &str) -> Names {
    names_between(first, last).collect()
}
