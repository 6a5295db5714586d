//! The lines before bodies, 'NAME, NAME from LABEL:': which processes a body belongs to. Each process has one.

use super::body::{Body, Owner};
use super::declare::Declared;
use super::hints::begins_statement;
use super::range;
use super::token::{Line, Placed};
use crate::names::{quoted, range_names, unquoted};
use crate::nearest::nearest;
use crate::report::{Place, Report};
use crate::sheet::{Kind, MAX_PROCESSES};

/// A name that is no process's.
struct Unknown {
    body: usize,
    name: String,
    place: Place,
    from: Option<(String, Place)>,
}

struct Owners<'a> {
    declared: &'a Declared,
    report: &'a mut Report,
    /// The line of each process's body, 0 if it has none yet.
    lines: Vec<u32>,
    unknown: Vec<Unknown>,
}

/// Gives each body its processes.
pub fn owners(bodies: &mut [Body], declared: &Declared, report: &mut Report) {
    let lines = vec![0; declared.of_kind(Kind::Process).len()];
    let mut owners = Owners { declared, report, lines, unknown: Vec::new() };
    for (at, body) in bodies.iter_mut().enumerate() {
        owners.header(at, body);
    }
    for unknown in std::mem::take(&mut owners.unknown) {
        if !owners.report.is_full() {
            owners.unknown(&unknown, &mut bodies[unknown.body]);
        }
    }
    for body in bodies.iter_mut().filter(|body| body.title.is_empty()) {
        owners.without_name(body);
    }
    owners.without_body();
}

impl Owners<'_> {
    fn names(&self) -> &[String] {
        self.declared.of_kind(Kind::Process)
    }

    /// Reads the line before a body; a statement that stands on it goes into the body.
    fn header(&mut self, at: usize, body: &mut Body) {
        let Some(line) = body.header.take() else { return };
        let tokens = &line.tokens;
        body.title = tokens[0].token.text().to_string();
        let colon = tokens.iter().position(|token| token.is(":"));
        let end = colon.unwrap_or_else(|| self.names_end(tokens));
        let place = tokens.get(end).map_or(line.end, |token| token.place);
        if tokens[..end].iter().all(|token| token.is(",")) {
            self.report.error(place, "expected the name of a process before ':'");
        }
        self.items(at, body, &tokens[..end], place);
        let rest = end + usize::from(colon.is_some());
        match tokens.get(rest) {
            _ if colon.is_none() => {
                self.report.error(place, format!("expected ':' behind the name of a body, '{}'", body.title));
            }
            Some(more) => {
                self.report.error(more.place, "a statement stands on a line of its own, indented under its body");
            }
            None => {}
        }
        if colon.is_some() && rest < tokens.len()
            || tokens.get(rest).and_then(Placed::word).is_some_and(begins_statement)
        {
            body.lines.insert(0, Line { indented: true, tokens: tokens[rest..].to_vec(), end: line.end });
        }
    }

    /// How many tokens are names, where no colon ends them.
    fn names_end(&self, tokens: &[Placed]) -> usize {
        let name = |word: &str| word == "from" || self.declared.process(word).is_some();
        let belongs = |at: &usize| {
            let (here, before) = (&tokens[*at], &tokens[*at - 1]);
            here.is(",") || here.is("..") || here.word().is_some_and(name) || before.word() == Some("from")
        };
        1 + (1..tokens.len()).take_while(belongs).count()
    }

    fn items(&mut self, at: usize, body: &mut Body, tokens: &[Placed], end: Place) {
        let (mut i, mut told) = (0, false);
        while let Some(here) = tokens.get(i).filter(|_| !self.report.is_full()) {
            let Some(first) = here.word().filter(|word| *word != "from") else {
                if !here.is(",") && !told {
                    told = true;
                    let found = here.token.text();
                    self.report.error(here.place, format!("expected the name of a process, found '{found}'"));
                }
                i += 1;
                continue;
            };
            let mut names = vec![first.to_string()];
            if range::begins(&tokens[i..]) {
                let range = range::read(&tokens[i..], self.report);
                i += range.tokens;
                names = match range.ends {
                    Some((_, last, size)) if size > 2 * MAX_PROCESSES => vec![last],
                    Some((first, last, _)) => range_names(&first, &last),
                    None => Vec::new(),
                };
            } else {
                i += 1;
            }
            let from = self.from(tokens, &mut i, end);
            self.own(at, body, (&names, here.place), &from);
        }
    }

    /// Reads 'from LABEL', if it stands here.
    fn from(&mut self, tokens: &[Placed], at: &mut usize, end: Place) -> Option<(String, Place)> {
        if tokens.get(*at).and_then(Placed::word) != Some("from") {
            return None;
        }
        let label = tokens.get(*at + 1).and_then(|label| Some((label.word()?.to_string(), label.place)));
        if label.is_none() {
            let (place, found) = tokens.get(*at + 1).map_or((end, ":"), |found| (found.place, found.token.text()));
            self.report.error(place, format!("expected a label behind 'from', found '{found}'"));
        }
        *at += 2;
        label
    }

    fn own(&mut self, at: usize, body: &mut Body, (names, place): (&[String], Place), from: &Option<(String, Place)>) {
        let (mut twice, mut unknown) = (Vec::new(), None);
        for name in names {
            match self.declared.process(name) {
                Some(named) if self.lines[named.index as usize - 1] == 0 => {
                    self.lines[named.index as usize - 1] = place.line;
                    body.owners.push(Owner { process: named.index, from: from.clone() });
                }
                Some(named) => twice.push((name.clone(), self.lines[named.index as usize - 1])),
                None => unknown = unknown.or(Some(name)),
            }
        }
        if let Some((_, line)) = twice.first() {
            let all: Vec<String> = twice.iter().map(|(name, _)| name.clone()).collect();
            let words = match *line == place.line {
                true => format!("{} stands twice before this body", quoted(&all)),
                false if all.len() > 1 => format!("a second body for {}: they have one on line {line}", quoted(&all)),
                false => format!("a second body for {}: it has one on line {line}", quoted(&all)),
            };
            self.report.error(place, words);
        }
        if let Some(name) = unknown.filter(|_| self.unknown.len() < MAX_PROCESSES as usize) {
            self.unknown.push(Unknown { body: at, name: name.clone(), place, from: from.clone() });
        }
    }

    /// Tells a name that is no process's. The nearest process without a body is taken for it.
    fn unknown(&mut self, Unknown { name, place, from, .. }: &Unknown, body: &mut Body) {
        let without = |at: &usize| self.lines[*at] == 0;
        let near = nearest(name, (0..self.lines.len()).filter(without).map(|at| &self.names()[at][..]));
        let words = match self.declared.find(name) {
            Some(named) => format!("'{name}' is {}: a body belongs to a process", named.is()),
            None => {
                let like = || self.declared.like(name, &[Kind::Process]);
                let hint = near.map_or_else(like, |near| format!("; did you mean '{near}'?"));
                format!("no process is named '{name}'{hint}")
            }
        };
        let told = self.names().is_empty() || self.declared.is_lost(name) || name == "main";
        let near = near.and_then(|near| self.declared.process(near));
        if !told {
            self.report.error(*place, words);
        }
        if let Some(named) = near {
            self.lines[named.index as usize - 1] = place.line;
            body.owners.push(Owner { process: named.index, from: from.clone() });
        }
    }

    /// A body whose name was forgotten, which has been told: it is taken for that of the first process without one.
    fn without_name(&mut self, body: &mut Body) {
        let Some(at) = self.lines.iter().position(|line| *line == 0) else { return };
        self.lines[at] = body.place.line;
        body.title = self.names()[at].clone();
        body.owners.push(Owner { process: at as u32 + 1, from: None });
    }

    /// Tells the processes that have no body, those of a range at once.
    fn without_body(&mut self) {
        let without = self.names().iter().zip(&self.lines).filter(|(_, line)| **line == 0).map(|(name, _)| name);
        for (place, names) in self.declared.by_place(without) {
            let (verb, its) = if names.len() == 1 { ("has", "its") } else { ("have", "their") };
            let end = "or 'end' for one that ends at once";
            let write = format!("write '{}:' and {its} statements, {end}", unquoted(&names));
            self.report.error(place, format!("{} {verb} no body: {write}", quoted(&names)));
        }
    }
}
