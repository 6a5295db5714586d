//! The declared names: heads, processes and links, each kind in one list.

use crate::names::{cut, quoted};
use crate::nearest::nearest;
use crate::report::{Place, Report};
use crate::sheet::{Counts, Kind, MAX_HEADS, MAX_LINKS, MAX_PROCESSES};
use std::collections::{HashMap, HashSet};

/// The lists in their order: the word, the kind, the most names.
pub const LISTS: [(&str, Kind, u32); 3] =
    [("heads", Kind::Head, MAX_HEADS), ("processes", Kind::Process, MAX_PROCESSES), ("links", Kind::Link, MAX_LINKS)];

/// One declared name.
#[derive(Clone, Copy, Debug)]
pub struct Named {
    pub kind: Kind,
    /// From 1, in its list.
    pub index: u32,
    pub place: Place,
}

impl Named {
    /// What it is: a head, a process or a link.
    pub fn is(&self) -> &'static str {
        self.kind.words()
    }
}

#[derive(Default, Debug)]
pub struct Declared {
    pub(super) by_name: HashMap<String, Named>,
    /// Names in order, one list for each kind.
    pub(super) lists: [Vec<String>; 3],
    /// Where each list stands.
    places: [Option<Place>; 3],
    /// Whether each has a name, be it a wrong one.
    pub(super) named: [bool; 3],
    /// Whether each was told to be too long.
    pub(super) too_long: [bool; 3],
    /// Names, and beginnings of numbered names, that stand where the text cannot be read: their use is no further mistake.
    lost: HashSet<String>,
}

pub fn slot(kind: Kind) -> usize {
    LISTS.iter().position(|list| list.1 == kind).unwrap_or(0)
}

/// The list that this word begins.
pub fn list_kind(word: &str) -> Option<Kind> {
    LISTS.iter().find(|list| list.0 == word).map(|list| list.1)
}

impl Declared {
    pub fn find(&self, name: &str) -> Option<Named> {
        self.by_name.get(name).copied()
    }

    pub fn process(&self, name: &str) -> Option<Named> {
        self.find(name).filter(|named| named.kind == Kind::Process)
    }

    pub fn names(&self) -> impl Iterator<Item = &str> {
        self.lists.iter().flatten().map(String::as_str)
    }

    pub fn of_kind(&self, kind: Kind) -> &[String] {
        &self.lists[slot(kind)]
    }

    pub fn counts(&self) -> Counts {
        let [heads, processes, links] = [0, 1, 2].map(|i| self.lists[i].len() as u32);
        Counts { heads, processes, links }
    }

    /// The number of a name in the sheet.
    pub fn number(&self, named: Named) -> u32 {
        let before: usize = self.lists[..slot(named.kind)].iter().map(Vec::len).sum();
        before as u32 + named.index
    }

    /// The name that has this number.
    pub fn name_of(&self, number: u32) -> &str {
        self.names().nth(number as usize - 1).unwrap_or("")
    }

    /// Names in their order, together where they were declared as one range.
    pub fn by_place<'a>(&self, names: impl Iterator<Item = &'a String>) -> Vec<(Place, Vec<String>)> {
        let mut groups: Vec<(Place, Vec<String>)> = Vec::new();
        for name in names {
            let Some(place) = self.find(name).map(|named| named.place) else { continue };
            match groups.last_mut() {
                Some((last, group)) if *last == place => group.push(name.clone()),
                _ => groups.push((place, vec![name.clone()])),
            }
        }
        groups
    }

    /// Begins a list, which has to be the first of its kind, and in its place.
    pub fn begin(&mut self, kind: Kind, place: Place, in_body: bool, report: &mut Report) {
        let (word, at) = (LISTS[slot(kind)].0, slot(kind));
        if let Some(first) = self.places[at] {
            report
                .error(place, format!("a second '{word}': all {word} stand in one list, begun on line {}", first.line));
        } else if in_body {
            report.error(place, format!("'{word}' after a body: heads, processes and links come before all bodies"));
        } else if let Some(later) = (at + 1..3).find(|i| self.places[*i].is_some()) {
            let order = "heads come first, then processes, then links";
            report.error(place, format!("'{word}' after '{}': {order}", LISTS[later].0));
        }
        self.places[at] = self.places[at].or(Some(place));
    }

    /// The use of this name, or of such with numbers behind it, is no further mistake.
    pub fn lose(&mut self, name: &str) {
        self.lost.insert(name.to_string());
    }

    pub fn is_lost(&self, name: &str) -> bool {
        self.lost.contains(name) || cut(name).is_some_and(|(stem, _)| self.lost.contains(stem))
    }

    /// What has to be there: main as the first process, and a name in each list.
    pub fn complete(&self, report: &mut Report) {
        for (i, (word, ..)) in LISTS.iter().enumerate() {
            if let Some(place) = self.places[i].filter(|_| !self.named[i]) {
                report.error(place, format!("'{word}' without a name"));
            }
        }
        match (self.lists[1].first(), self.process("main")) {
            (Some(first), Some(main)) if first != "main" => {
                report.error(main.place, format!("'main' is the first process: put it before '{first}'"));
            }
            (Some(first), None) => {
                let place = self.by_name[first].place;
                report.error(place, format!("expected 'main', which is the first process, found '{first}'"));
            }
            (None, _) if self.places[1].is_none() => {
                let top = Place { line: 1, column: 1 };
                report.error(top, "no 'processes': a model has at least main, as in 'processes main'");
            }
            _ => {}
        }
    }

    /// The end of a message on a name that is not declared: those that differ in the number alone, or the nearest, of these kinds before
    /// others.
    pub fn like(&self, name: &str, kinds: &[Kind]) -> String {
        let wanted = || kinds.iter().flat_map(|kind| self.of_kind(*kind)).map(String::as_str);
        let stem = cut(name).map(|(stem, _)| stem);
        let family: Vec<String> = match stem {
            Some(stem) => wanted().filter(|n| cut(n).is_some_and(|c| c.0 == stem)).map(str::to_string).collect(),
            None => Vec::new(),
        };
        if !family.is_empty() {
            let verb = if family.len() == 1 { "is" } else { "are" };
            return format!("; there {verb} {}", quoted(&family));
        }
        let near = nearest(name, wanted()).or_else(|| nearest(name, self.names()));
        near.map_or(String::new(), |near| format!("; did you mean '{near}'?"))
    }
}
