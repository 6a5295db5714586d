//! The outline of a text: its lists of names, and its bodies with the lines of their statements.

use super::body::Body;
use super::declare::{list_kind, slot, Declared, LISTS};
use super::header;
use super::hints::{begins_statement, meant_word, statement_words};
use super::token::{behind, Line, Placed};
use crate::nearest::nearest;
use crate::report::{Place, Report};
use crate::sheet::Kind;
use std::collections::HashSet;

const EXPECTED: &str = "expected 'heads', 'processes', 'links' or a body, as in 'main:'";
const INDENTED: &str = "this line is indented: 'heads', 'processes', 'links' and the names of bodies stand at the left";
const AT_LEFT: &str = "a statement at the left: statements and labels are indented under their body";

/// With more bodies there are more mistakes than are told: at most 1,024 have a process.
const MOST_BODIES: usize = 1_600;

/// What a line may belong to.
#[derive(Clone, Copy, PartialEq, Eq)]
enum Section {
    Top,
    List(Kind),
    Body,
    /// Behind a line before all bodies that could not be read.
    Lost,
}

/// What a line is.
enum Is {
    List(Kind),
    Names(Kind),
    Header,
    Statement,
    Nothing,
}

struct Outliner<'a> {
    declared: Declared,
    bodies: Vec<Body>,
    section: Section,
    /// The words behind 'goto' and 'from' in the whole text.
    goals: HashSet<String>,
    headed: HashSet<String>,
    report: &'a mut Report,
}

/// Reads the lists of names, and cuts the rest into bodies.
pub fn outline(lines: Vec<Line>, report: &mut Report) -> (Declared, Vec<Body>) {
    let goals = behind(&["goto", "from"], &lines).into_iter().map(str::to_string).collect();
    let headed = headed(&lines);
    let (declared, bodies, section) = (Declared::default(), Vec::new(), Section::Top);
    let mut outliner = Outliner { declared, bodies, section, goals, headed, report };
    lines.into_iter().for_each(|line| outliner.line(line));
    let Outliner { declared, mut bodies, .. } = outliner;
    declared.complete(report);
    header::owners(&mut bodies, &declared, report);
    (declared, bodies)
}

/// The words that stand at the left before a colon.
fn headed(lines: &[Line]) -> HashSet<String> {
    let at_left = lines.iter().filter(|line| !line.indented);
    let before = at_left.filter_map(|line| Some(&line.tokens[..colon(line)?]));
    before.flatten().map(|token| token.token.text().to_string()).collect()
}

fn colon(line: &Line) -> Option<usize> {
    line.tokens.iter().position(|token| token.is(":"))
}

impl Outliner<'_> {
    fn line(&mut self, line: Line) {
        if self.report.is_full() || self.bodies.len() > MOST_BODIES {
            return;
        }
        let word = line.tokens[0].word().unwrap_or("");
        let is = match list_kind(word) {
            Some(kind) => Is::List(kind),
            None if line.indented => self.indented(&line, word),
            None => self.at_left(&line, word),
        };
        match is {
            Is::List(kind) => self.list(kind, &line),
            Is::Names(kind) => self.names(kind, &line),
            Is::Header => self.header(line),
            Is::Statement => self.statement(line),
            Is::Nothing => self.nothing(&line),
        }
    }

    fn indented(&self, line: &Line, word: &str) -> Is {
        let meant_left = self.declared.process(word).is_some() && !self.headed.contains(word);
        match (self.section, colon(line)) {
            (_, Some(_)) if meant_left => Is::Header,
            (Section::Body, _) | (_, Some(1)) => Is::Statement,
            _ if begins_statement(word) => Is::Statement,
            (Section::List(kind), _) => Is::Names(kind),
            _ => Is::Nothing,
        }
    }

    fn at_left(&self, line: &Line, word: &str) -> Is {
        let (colon, near) = (colon(line), self.near_process(word));
        let first_body = self.bodies.is_empty();
        if self.declared.process(word).is_some() {
            return Is::Header;
        } else if begins_statement(word) {
            return Is::Statement;
        } else if let Some(kind) = self.misspelt(word).filter(|_| !near && (first_body || colon != Some(1))) {
            return Is::List(kind);
        }
        let more = colon.is_some_and(|colon| colon + 1 < line.tokens.len());
        match (colon, self.section) {
            (Some(1), _) if !first_body && (self.goals.contains(word) || more && !near) => Is::Statement,
            (Some(_), _) => Is::Header,
            (None, _) if near => Is::Header,
            (None, Section::List(kind)) => Is::Names(kind),
            _ if !first_body && meant_word(word, &statement_words()).is_some() => Is::Statement,
            _ => Is::Nothing,
        }
    }

    fn near_process(&self, word: &str) -> bool {
        nearest(word, self.declared.of_kind(Kind::Process).iter().map(String::as_str)).is_some()
    }

    /// The list that is meant.
    fn misspelt(&self, word: &str) -> Option<Kind> {
        meant_word(word, &LISTS.map(|list| list.0)).and_then(list_kind)
    }

    fn list(&mut self, kind: Kind, line: &Line) {
        let (first, word) = (&line.tokens[0], LISTS[slot(kind)].0);
        let in_body = !self.bodies.is_empty();
        if first.word() != Some(word) {
            let words = format!("{EXPECTED}, found '{}'; did you mean '{word}'?", first.token.text());
            self.report.error(first.place, words);
        } else if line.indented && !in_body {
            self.report.error(first.place, INDENTED);
        }
        self.declared.begin(kind, first.place, in_body, self.report);
        let names = match line.tokens.get(1).filter(|mark| mark.is(":")) {
            Some(colon) => {
                let first = line.tokens.get(2).and_then(Placed::word).unwrap_or("NAME");
                self.report.error(colon.place, format!("no ':' stands behind '{word}': write '{word} {first}'"));
                &line.tokens[2..]
            }
            None => &line.tokens[1..],
        };
        self.declared.add(kind, names, self.report);
        if !(line.indented && in_body) {
            self.section = Section::List(kind);
        }
    }

    /// More names for a list; a line at the left is meant so.
    fn names(&mut self, kind: Kind, line: &Line) {
        let first = &line.tokens[0];
        if !line.indented {
            let hint = "a list goes on in indented lines";
            self.report.error(first.place, format!("{EXPECTED}, found '{}'; {hint}", first.token.text()));
        }
        self.declared.add(kind, &line.tokens, self.report);
    }

    fn header(&mut self, line: Line) {
        let place = line.tokens[0].place;
        if line.indented {
            self.report.error(place, INDENTED);
        }
        self.body(place, Some(line));
    }

    fn body(&mut self, place: Place, header: Option<Line>) {
        self.bodies.push(Body { place, title: String::new(), header, owners: Vec::new(), lines: Vec::new() });
        self.section = Section::Body;
    }

    fn statement(&mut self, line: Line) {
        let place = line.tokens[0].place;
        if self.bodies.is_empty() {
            let before = "the name of its process comes before it, as in 'main:'";
            self.report.error(place, format!("a statement outside a body: {before}"));
            self.body(place, None);
        } else if !line.indented {
            self.report.error(place, AT_LEFT);
        }
        if let Some(body) = self.bodies.last_mut() {
            body.lines.push(line);
        }
    }

    /// A line that cannot be read; what it may have declared is no further mistake.
    fn nothing(&mut self, line: &Line) {
        let first = &line.tokens[0];
        if !(line.indented && self.section == Section::Lost) {
            self.report.error(first.place, format!("{EXPECTED}, found '{}'", first.token.text()));
        }
        line.tokens.iter().filter_map(Placed::word).for_each(|word| self.declared.lose(word));
        if self.bodies.is_empty() {
            self.section = Section::Lost;
        }
    }
}
