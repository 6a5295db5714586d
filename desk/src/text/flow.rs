//! The statements of a body in their order: which record each is, where it goes on, and where labels stand.

use super::body::Body;
use super::declare::Declared;
use super::hints::{begins_statement, is_reserved};
use super::judge;
use super::statement::{self, Statement};
use super::token::{behind, is_letter, Line, Placed};
use crate::report::{Place, Report};
use crate::sheet::{Record, MAX_RECORDS};
use std::collections::{HashMap, HashSet};
use std::ops::Range;

/// A step of the model: its record, its place in the text, and the labels it goes to.
#[derive(Debug)]
pub struct Step {
    pub record: Record,
    pub place: Place,
    /// The label of a branch, for y.
    pub branch: Option<(String, Place)>,
    /// The label of a goto, for next.
    pub goto: Option<(String, Place)>,
}

/// Where a label stands: its record, 0 for an end.
#[derive(Clone, Copy, Debug)]
pub struct Label {
    pub record: u32,
    pub place: Place,
}

/// One body, read.
#[derive(Default, Debug)]
pub struct Flow {
    /// The record of its first statement, 0 if it ends at once.
    pub first: u32,
    /// Where its steps stand among all steps.
    pub steps: Range<usize>,
    pub labels: HashMap<String, Label>,
}

/// How the statement before leaves off.
#[derive(Clone, Copy, PartialEq, Eq, Debug)]
pub(super) enum Before {
    /// Nothing stands before.
    Start,
    /// It goes on to what follows.
    Open,
    /// A goto or an end on this line.
    Closed(&'static str, u32),
}

pub(super) struct Reader<'a> {
    pub(super) body: &'a Body,
    declared: &'a Declared,
    /// The labels that this body goes to.
    goals: HashSet<&'a str>,
    pub(super) steps: &'a mut Vec<Step>,
    pub(super) report: &'a mut Report,
    pub(super) flow: Flow,
    pub(super) before: Before,
    /// Labels that stand before the next statement.
    pub(super) waiting: Vec<String>,
    /// An end with nothing before it.
    pub(super) at_once: Option<Place>,
}

/// Reads a body; its steps are added to those of the bodies before.
pub fn read(body: &Body, declared: &Declared, steps: &mut Vec<Step>, report: &mut Report) -> Flow {
    let from = steps.len();
    let goals = behind(&["goto"], &body.lines);
    let (flow, before, waiting) = (Flow::default(), Before::Start, Vec::new());
    let mut reader = Reader { body, declared, goals, steps, report, flow, before, waiting, at_once: None };
    for line in &body.lines {
        if !reader.report.is_full() {
            reader.line(line);
        }
    }
    let flow = reader.close();
    Flow { steps: from..steps.len(), ..flow }
}

impl Reader<'_> {
    fn line(&mut self, line: &Line) {
        let mut at = 0;
        while let Some(label) = line.tokens.get(at) {
            if line.tokens.get(at + 1).is_some_and(|mark| mark.is(":")) {
                at += 2;
            } else if self.is_bare_label(&line.tokens[at..]) {
                let words = format!("expected ':' behind '{}', if it is a label", label.token.text());
                self.report.error(line.tokens.get(at + 1).map_or(line.end, |next| next.place), words);
                at += 1;
            } else {
                break;
            }
            self.label(label);
        }
        match line.tokens.get(at).map(|token| (token, token.word())) {
            None => {}
            Some((token, Some("goto"))) => self.goto(line, at, token.place),
            Some((token, Some("end"))) => self.end(line, at, token.place),
            Some((token, _)) => {
                let errors = self.report.errors();
                let all_names = self.steps.len() <= MAX_RECORDS as usize && !self.report.is_full();
                let read = statement::read(line, at, all_names, self.declared, self.report);
                self.statement(read.filter(|_| self.report.errors() == errors), token.place);
            }
        }
    }

    /// Whether a label stands here whose colon was forgotten: before a statement, or alone on its line.
    fn is_bare_label(&self, tokens: &[Placed]) -> bool {
        let Some(name) = tokens[0].word() else { return false };
        let free = name.starts_with(is_letter) && !is_reserved(name) && self.declared.find(name).is_none();
        free && match tokens.get(1).map(|next| next.word().unwrap_or("")) {
            None | Some("goto" | "end") => self.goals.contains(name),
            Some(next) => begins_statement(next),
        }
    }

    fn label(&mut self, token: &Placed) {
        let text = token.token.text();
        let Some(name) = token.word().filter(|name| name.starts_with(is_letter)) else {
            return self.report.error(token.place, format!("'{text}' is no label: a label begins with a letter"));
        };
        if is_reserved(name) {
            self.report.error(token.place, format!("'{name}' is a word of the language and cannot be a label"));
        } else if let Some(named) = self.declared.find(name) {
            self.report.error(token.place, format!("'{name}' is {} and cannot be a label", named.is()));
        } else if let Some(Label { place, .. }) = self.flow.labels.get(name) {
            let words = format!("label '{name}' stands on line {} of this body already", place.line);
            return self.report.error(token.place, words);
        }
        self.flow.labels.insert(name.to_string(), Label { record: 0, place: token.place });
        self.waiting.push(name.to_string());
    }

    /// The labels that wait stand for this record.
    pub(super) fn settle(&mut self, record: u32) {
        for name in self.waiting.drain(..) {
            self.flow.labels.entry(name).and_modify(|label| label.record = record);
        }
    }

    fn statement(&mut self, read: Option<Statement>, place: Place) {
        if let Some(end) = self.at_once.take() {
            self.report.error(end, "'end' before the statements of this body: none of them would be reached");
        }
        let number = self.steps.len() as u32 + 1;
        if self.before == Before::Start {
            self.flow.first = number;
        }
        self.settle(number);
        self.before = Before::Open;
        let (branch, records) = match read {
            Some(read) => {
                judge::judge(&read, place, self.declared, self.report);
                (read.label, read.records)
            }
            None => (None, vec![Record::default()]),
        };
        let (most, size) = (MAX_RECORDS as usize, self.steps.len() + records.len());
        if self.steps.len() <= most && size > most {
            let counts = "each statement is one, and one with a range is one for each name";
            self.report.error(place, format!("one step too many: a sheet has at most {most} records; {counts}"));
        }
        for record in records {
            let next = self.steps.len() as u32 + 2;
            let (branch, goto) = (branch.clone(), None);
            self.steps.push(Step { record: Record { next, ..record }, place, branch, goto });
        }
    }

    /// The end of the body: its last step ends, unless it goes elsewhere.
    fn close(mut self) -> Flow {
        if let Some(name) = self.waiting.first() {
            let place = self.flow.labels[name].place;
            self.report.error(place, format!("label '{name}' stands before nothing: write '{name}: end'"));
        }
        self.settle(0);
        match self.before {
            Before::Start if !self.body.owners.is_empty() => {
                let title = &self.body.title;
                let write = format!("write 'end' if it ends at once, or '{title}, ..:' where processes share a body");
                self.report.error(self.body.place, format!("the body of '{title}' has no statement: {write}"));
            }
            Before::Open => self.steps.last_mut().into_iter().for_each(|step| step.record.next = 0),
            _ => {}
        }
        self.flow
    }
}
