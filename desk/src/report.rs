//! Mistakes and warnings of a text, each with its place: file:line:column: error: ..

use std::collections::HashMap;
use std::fmt::Write;

/// So many are told; a text with more is hardly a model.
const MOST: usize = 500;

#[derive(Clone, Copy, PartialEq, Eq, Debug)]
pub enum Weight {
    Error,
    Warning,
}

impl Weight {
    fn word(self) -> &'static str {
        match self {
            Weight::Error => "error",
            Weight::Warning => "warning",
        }
    }
}

/// A place in a text; lines and columns count from 1, columns in characters.
#[derive(Clone, Copy, PartialEq, Eq, PartialOrd, Ord, Hash, Debug)]
pub struct Place {
    pub line: u32,
    pub column: u32,
}

#[derive(Debug)]
struct Remark {
    place: Place,
    weight: Weight,
    words: String,
}

/// All that is to be said of a text.
#[derive(Default, Debug)]
pub struct Report {
    remarks: Vec<Remark>,
    /// All mistakes, told or not.
    errors: usize,
    /// The mistakes and the warnings that are to be told, be they too many.
    found: [usize; 2],
    /// Lines that make no sense from a column on.
    spoilt: HashMap<u32, u32>,
}

impl Report {
    pub fn error(&mut self, place: Place, words: impl Into<String>) {
        self.errors += 1;
        self.remark(place, Weight::Error, words.into());
    }

    pub fn warning(&mut self, place: Place, words: impl Into<String>) {
        self.remark(place, Weight::Warning, words.into());
    }

    /// A mistake that follows from another one: it is not told.
    pub fn follow_up(&mut self) {
        self.errors += 1;
    }

    /// From here on the line makes no sense; what is found in it then follows from that, and is not told.
    pub fn spoil(&mut self, place: Place) {
        let column = self.spoilt.entry(place.line).or_insert(place.column);
        *column = place.column.min(*column);
    }

    fn remark(&mut self, place: Place, weight: Weight, words: String) {
        if self.spoilt.get(&place.line).is_some_and(|column| *column <= place.column) {
            return;
        }
        self.found[weight as usize] += 1;
        if self.found[weight as usize] <= MOST {
            self.remarks.push(Remark { place, weight, words });
        }
    }

    pub fn errors(&self) -> usize {
        self.errors
    }

    /// Whether no more mistakes are told; then nothing more needs to be read.
    pub fn is_full(&self) -> bool {
        self.found[Weight::Error as usize] > MOST
    }

    /// A line for each, in the order of their places.
    pub fn lines(&mut self, file: &str) -> String {
        self.remarks.sort_by_key(|remark| remark.place);
        let mut out = String::new();
        for (weight, words) in [(Weight::Error, "mistakes"), (Weight::Warning, "warnings")] {
            if self.found[weight as usize] > MOST {
                let _ = writeln!(out, "{file}:1:1: {}: more than {MOST} {words}: not all are told", weight.word());
            }
        }
        for Remark { place, weight, words } in &self.remarks {
            let _ = writeln!(out, "{file}:{}:{}: {}: {words}", place.line, place.column, weight.word());
        }
        out
    }
}
