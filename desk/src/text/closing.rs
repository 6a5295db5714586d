//! 'goto' and 'end', which make no record: they close the statement before them, and say where it goes on.

use super::flow::{Before, Reader};
use super::token::Line;
use crate::report::Place;

impl Reader<'_> {
    pub(super) fn goto(&mut self, line: &Line, at: usize, place: Place) {
        let label = line.tokens.get(at + 1).and_then(|label| Some((label.word()?.to_string(), label.place)));
        if label.is_none() {
            let (place, found) = found(line, at + 1);
            self.report.error(place, format!("expected a label behind 'goto', found {found}"));
        }
        self.no_more(line, at + 2, "goto LABEL");
        self.goto_here(place, label.as_ref().map(|(name, _)| &name[..]));
        if let (Before::Open, Some(step)) = (self.before, self.steps.last_mut()) {
            step.goto = label;
        }
        self.before = Before::Closed("goto", place.line);
    }

    /// Whether a goto can stand here: behind a statement, without a label.
    fn goto_here(&mut self, place: Place, to: Option<&str>) {
        let to = to.unwrap_or("LABEL");
        let label = self.waiting.first().map(|name| (name.clone(), self.flow.labels[name].place));
        self.settle(0);
        match (label, self.before) {
            (Some((name, place)), _) => {
                let write = format!("which is no step: write 'goto {to}' instead of 'goto {name}'");
                let why = if to == name { "which goes to it: it would never go on" } else { &write };
                self.report.error(place, format!("label '{name}' stands before a 'goto', {why}"));
            }
            (None, Before::Start) => {
                let write = format!("write '{} from {to}:', and it begins there", self.body.title);
                self.report.error(place, format!("'goto' before the first statement of this body: {write}"));
            }
            (None, Before::Closed(word, line)) => {
                self.report.error(place, format!("'goto' after '{word}' on line {line}: nothing comes here"));
            }
            (None, Before::Open) => {}
        }
    }

    pub(super) fn end(&mut self, line: &Line, at: usize, place: Place) {
        self.no_more(line, at + 1, "end");
        let labelled = !self.waiting.is_empty();
        self.settle(0);
        match (self.before, self.steps.last_mut()) {
            (Before::Start, _) => self.at_once = Some(place),
            (Before::Closed(word, line), _) if !labelled => {
                self.report.error(place, format!("'end' after '{word}' on line {line}: nothing comes here"));
            }
            (Before::Open, Some(step)) => step.record.next = 0,
            _ => {}
        }
        self.before = Before::Closed("end", place.line);
    }

    fn no_more(&mut self, line: &Line, at: usize, form: &str) {
        if at < line.tokens.len() {
            let (place, found) = found(line, at);
            self.report.error(place, format!("expected the end of the line behind '{form}', found {found}"));
        }
    }
}

/// What stands at a place of a line, in words.
pub fn found(line: &Line, at: usize) -> (Place, String) {
    match line.tokens.get(at) {
        Some(token) => (token.place, format!("'{}'", token.token.text())),
        None => (line.end, "the end of the line".to_string()),
    }
}
