//! Operands of a statement: a name, a range of names, none, current, first(HEAD) or first_process(HEAD).

use super::hints::is_reserved;
use super::range;
use super::statement::Reader;
use super::token::Placed;
use crate::names::{names_between, Names};
use crate::nearest::nearest;
use crate::operations::{Part, Wants, FIRST, FIRST_PROCESS};
use crate::report::Place;
use crate::sheet::{Kind, Record, CURRENT};

/// Words of the language that are operands, or begin one.
const OWN: [&str; 4] = ["none", "current", FIRST, FIRST_PROCESS];
/// The statements that ask for a process.
const PROCESSES: &str = "only 'cancel', 'activate' and 'reactivate' take 'first_process(HEAD)'";

impl Reader<'_> {
    /// The first operand, which may be a range: a record for each of its names.
    pub(super) fn x(&mut self, wants: Wants) -> bool {
        let place = self.here();
        self.read.x_place = place;
        if !range::begins(&self.line.tokens[self.at..]) {
            let Some(x) = self.operand(wants) else { return false };
            self.each(|record| record.x = x);
            return true;
        }
        let range = range::read(&self.line.tokens[self.at..], self.report);
        self.at += range.tokens;
        match range.ends {
            _ if wants == Wants::Head => self.report.error(place, "a range will not do here: this takes one head"),
            Some((first, last, _)) => self.names(&first, &last, place, wants),
            None => {}
        }
        true
    }

    /// The names of a range, of which not more can be declared than there are; where not all count, its ends.
    fn names(&mut self, first: &str, last: &str, place: Place, wants: Wants) {
        let most = self.declared.counts().total() as usize + 1;
        let ends = [first, last].map(str::to_string);
        let names: Names = if self.all_names { names_between(first, last).take(most).collect() } else { ends.to_vec() };
        let mut records = Vec::new();
        for name in names {
            let Some(named) = self.declared.find(&name) else { return self.no_name(&name, place, wants) };
            records.push(Record { x: self.declared.number(named), ..Record::default() });
        }
        self.read.records = records;
    }

    /// A name, none, current, first(HEAD) or first_process(HEAD); nothing if the line cannot be read on.
    pub(super) fn operand(&mut self, wants: Wants) -> Option<u32> {
        let here = &self.line.tokens[self.at];
        let own = |word: &str| OWN.contains(&word) || self.declared.find(word).is_some();
        let Some(word) = here.word().filter(|word| own(word) || !is_reserved(word)) else {
            self.expected_value(Part::X(wants));
            return None;
        };
        self.at += 1;
        let value = match word {
            "none" => Some(0),
            "current" => Some(CURRENT),
            FIRST | FIRST_PROCESS => self.first(word, here.place, wants),
            name => match self.declared.find(name) {
                Some(named) => Some(self.declared.number(named)),
                None => self.unknown(name, here.place, wants),
            },
        };
        self.no_range();
        value
    }

    /// A word that is no name: last(goods) is told as what it is.
    fn unknown(&mut self, name: &str, place: Place, wants: Wants) -> Option<u32> {
        if self.line.tokens.get(self.at).is_some_and(|mark| mark.is("(")) {
            self.report.error(place, format!("expected '{}' before '(', found '{name}'", wants.first()));
            return None;
        }
        self.no_name(name, place, wants);
        Some(0)
    }

    /// A range behind an operand that takes one name.
    fn no_range(&mut self) {
        if self.line.tokens.get(self.at).is_some_and(|mark| mark.is("..")) {
            self.report.error(self.here(), "a range can only be the first operand of a statement");
            self.at = (self.at + 2).min(self.line.tokens.len());
        }
    }

    /// Behind 'first' or 'first_process': a head in parentheses. The statement says which of the two it takes; older texts have 'first' for
    /// both.
    fn first(&mut self, word: &str, place: Place, wants: Wants) -> Option<u32> {
        let other = word != wants.first();
        if other && word == FIRST_PROCESS {
            self.report.error(place, format!("{PROCESSES}; 'first(HEAD)' is the first member"));
        }
        let head = self.head(word, wants)?;
        if other && word == FIRST && head > 0 {
            let write = format!("{FIRST_PROCESS}({})", self.declared.name_of(head));
            let means = "here this means the first process of the queue, not its first member";
            self.report.warning(place, format!("{means}: write '{write}'"));
        }
        Some(if head > 0 { CURRENT + head } else { 0 })
    }

    /// The head behind one of these words, 0 if it is none; nothing if the line cannot be read on.
    fn head(&mut self, word: &str, wants: Wants) -> Option<u32> {
        self.mark("(", wants)?;
        let place = self.here();
        let may_stand = |word: &&str| !is_reserved(word) || self.declared.find(word).is_some();
        let Some(name) = self.line.tokens.get(self.at).and_then(Placed::word).filter(may_stand) else {
            let words = format!("expected the name of a head behind '{word}(', found {}", self.found());
            self.report.error(place, words);
            return None;
        };
        self.at += 1;
        let named = self.declared.find(name);
        match named {
            Some(named) if named.kind == Kind::Head => {}
            Some(named) => self.report.error(place, format!("'{name}' is {}: '{word}' takes a head", named.is())),
            None => self.no_name(name, place, Wants::Head),
        }
        self.mark(")", wants)?;
        Some(named.filter(|named| named.kind == Kind::Head).map_or(0, |head| head.index))
    }

    /// One of the marks around that head.
    fn mark(&mut self, mark: &str, wants: Wants) -> Option<()> {
        if self.line.tokens.get(self.at).is_some_and(|token| token.is(mark)) {
            self.at += 1;
            return Some(());
        }
        let before = self.line.tokens.get(self.at.wrapping_sub(1)).and_then(Placed::word).unwrap_or("");
        let form = format!("{}(goods)", wants.first());
        let words = format!("expected '{mark}' behind '{before}', as in {form}, found {}", self.found());
        self.report.error(self.here(), words);
        None
    }

    /// No such name; with what comes near to it.
    fn no_name(&mut self, name: &str, place: Place, wants: Wants) {
        let kinds = [Kind::Head, Kind::Process, Kind::Link].into_iter().filter(|kind| kind.will_do(wants));
        let kinds: Vec<Kind> = kinds.collect();
        if self.declared.is_lost(name) || self.report.is_full() {
            return self.report.follow_up();
        }
        let mut hint = self.declared.like(name, &kinds);
        if let Some(own) = nearest(name, OWN.into_iter()).filter(|_| hint.is_empty()) {
            let own = if own.starts_with(FIRST) { wants.first() } else { own };
            hint = format!("; did you mean '{own}'?");
        }
        self.report.error(place, format!("no head, process or link is named '{name}'{hint}"));
    }
}
