//! Ranges of names, crate1..crate40: in lists, before bodies and in statements.

use super::token::{Placed, Token};
use crate::names::{cut, range_size};
use crate::report::Report;

/// A range as the text has it, and how it is read.
pub struct Range {
    /// How many tokens it has.
    pub tokens: usize,
    /// The two ends and the number of names; nothing if it cannot be read.
    pub ends: Option<(String, String, u32)>,
    /// What its names begin with, be they read or not.
    pub stems: [String; 2],
}

pub fn begins(tokens: &[Placed]) -> bool {
    tokens.get(1).is_some_and(|mark| mark.is(".."))
}

/// Reads the range that begins here. One that goes down, or that leaves out the second stem, is told, and read as it is meant.
pub fn read(tokens: &[Placed], report: &mut Report) -> Range {
    let (place, first) = (tokens[0].place, tokens[0].token.text());
    let end = tokens.get(2).map(|last| &last.token).filter(|last| !matches!(last, Token::Mark(_)));
    let last = end.map_or("", Token::text);
    let stem = |name: &str| cut(name).map_or(name, |(stem, _)| stem).to_string();
    let mut range = Range { tokens: 2 + usize::from(end.is_some()), ends: None, stems: [stem(first), stem(last)] };
    let whole = match end {
        Some(Token::Number(digits)) => stem(first) + digits,
        _ => last.to_string(),
    };
    match (range_size(first, &whole), range_size(&whole, first)) {
        _ if end.is_none() => report.error(place, format!("'{first}..': a range has two ends, as in crate1..crate40")),
        (Ok(size), _) => {
            if whole != last {
                report.error(place, format!("'{first}..{last}': write '{first}..{whole}'"));
            }
            range.ends = Some((first.to_string(), whole, size));
        }
        (Err(why), turned) => {
            report.error(place, format!("'{first}..{last}': {why}"));
            range.ends = turned.ok().map(|size| (whole, first.to_string(), size));
        }
    }
    range
}
