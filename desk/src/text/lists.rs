//! The names in the lists of a text.

use super::declare::{list_kind, slot, Declared, Named, LISTS};
use super::hints::is_reserved;
use super::range;
use super::token::{is_letter, Placed};
use crate::names::{quoted, range_names};
use crate::report::{Place, Report};
use crate::sheet::Kind;

/// A list is read up to so many names, beyond its limit too, so that their use is no further mistake.
const READ_ON: usize = 5_000;

impl Declared {
    /// The names in these tokens, which go on with a list.
    pub fn add(&mut self, kind: Kind, tokens: &[Placed], report: &mut Report) {
        self.named[slot(kind)] |= tokens.iter().any(|token| !token.is(","));
        let (mut kind, mut at, mut told) = (kind, 0, false);
        while let Some(here) = tokens.get(at).filter(|_| !report.is_full()) {
            if let Some(other) = here.word().and_then(list_kind) {
                let words =
                    format!("'{}' begins a list, and stands at the left of a line of its own", LISTS[slot(other)].0);
                report.error(here.place, words);
                self.begin(other, here.place, false, report);
                self.named[slot(other)] |= tokens[at + 1..].iter().any(|token| !token.is(","));
                kind = other;
            } else if here.word().is_some() {
                at += self.item(kind, &tokens[at..], report);
                continue;
            } else if !here.is(",") {
                self.no_name(here, at.checked_sub(1).map(|before| &tokens[before]), told, report);
                told = true;
            }
            at += 1;
        }
    }

    /// Something else where a name should stand: crate 1..40, or 40 for as many links. It is told once for a line.
    fn no_name(&mut self, found: &Placed, before: Option<&Placed>, told: bool, report: &mut Report) {
        if let Some(stem) = before.and_then(Placed::word) {
            self.lose(stem);
        }
        if told {
            return report.follow_up();
        }
        let text = found.token.text();
        let hint = if text == ":" { "" } else { "; many names are a range, as in crate1..crate40" };
        report.error(found.place, format!("expected a name, found '{text}'{hint}"));
    }

    /// One name, or a range of them; how many tokens it has.
    fn item(&mut self, kind: Kind, tokens: &[Placed], report: &mut Report) -> usize {
        let (first, place) = (tokens[0].token.text(), tokens[0].place);
        if !range::begins(tokens) {
            self.declare(kind, &[first.to_string()], place, report);
            return 1;
        }
        let range = range::read(tokens, report);
        match &range.ends {
            Some((first, last, size)) => self.range(kind, (first, last, *size), place, report),
            None => range.stems.iter().for_each(|stem| self.lose(stem)),
        }
        range.tokens
    }

    fn range(&mut self, kind: Kind, (first, last, size): (&str, &str, u32), place: Place, report: &mut Report) {
        let (word, _, most) = LISTS[slot(kind)];
        if size as usize > READ_ON {
            report.error(place, format!("'{first}..{last}' has {size} names: a model has at most {most} {word}"));
            self.too_long[slot(kind)] = true;
            self.lose(first.trim_end_matches(|c: char| c.is_ascii_digit()));
        } else if !report.is_full() {
            self.declare(kind, &range_names(first, last), place, report);
        }
    }

    fn declare(&mut self, kind: Kind, names: &[String], place: Place, report: &mut Report) {
        let Some(first) = names.first() else { return };
        if !first.starts_with(is_letter) {
            report.error(place, format!("'{first}' is no name: a name begins with a letter"));
        } else if is_reserved(first) {
            report.error(place, format!("'{first}' is a word of the language and cannot be a name"));
        } else if first == "main" && kind != Kind::Process {
            return report.error(place, "'main' can only be the first process");
        }
        let mut twice = Vec::new();
        for name in names {
            match self.find(name) {
                Some(earlier) => twice.push((name.clone(), earlier)),
                None => self.one(kind, name, place, report),
            }
        }
        if let Some((name, earlier)) = twice.first() {
            let (is, line) = (earlier.is(), earlier.place.line);
            let all: Vec<String> = twice.iter().map(|(name, _)| name.clone()).collect();
            let words = if all.len() == 1 {
                format!("'{name}' is declared twice: it is {is} on line {line}")
            } else {
                format!("{} are declared twice: '{name}' is {is} on line {line}", quoted(&all))
            };
            report.error(place, words);
        }
    }

    fn one(&mut self, kind: Kind, name: &str, place: Place, report: &mut Report) {
        let (at, (word, _, most)) = (slot(kind), LISTS[slot(kind)]);
        if self.lists[at].len() >= READ_ON {
            return self.lose(name);
        }
        self.lists[at].push(name.to_string());
        let index = self.lists[at].len() as u32;
        self.by_name.insert(name.to_string(), Named { kind, index, place });
        if index > most && !self.too_long[at] {
            self.too_long[at] = true;
            report.error(place, format!("'{name}' is one too many: a model has at most {most} {word}"));
        }
    }
}
