//! What was expected in a statement, and what stands there instead.

use super::closing::found;
use super::hints::{begins_statement, meant_word};
use super::statement::Reader;
use super::token::{Placed, Token};
use crate::operations::Part;
use crate::report::Place;

const END: &str = "the end of the line";
/// A statement that newcomers give a number of ticks, and the one that takes it.
const TICKS: (&str, &str) = ("wait", "hold");
/// Words for what is said by leaving them out.
const LEFT_OUT: [&str; 2] = ["direct", "now"];

impl Reader<'_> {
    pub(super) fn here(&self) -> Place {
        found(self.line, self.at).0
    }

    pub(super) fn found(&self) -> String {
        found(self.line, self.at).1
    }

    /// Says what could stand here instead.
    pub(super) fn expected(&mut self, part: usize) -> bool {
        let (mut could, mut words) = (Vec::new(), Vec::new());
        for row in &self.rows {
            let one = match row.form.get(part) {
                None => END.to_string(),
                Some(Part::Word(word)) => {
                    words.push(*word);
                    format!("'{word}'")
                }
                Some(other) => in_words(*other).to_string(),
            };
            if !could.contains(&one) {
                could.push(one);
            }
        }
        let hint = self.hint(&words, could.iter().any(|one| one == END));
        self.report.error(self.here(), format!("expected {}, found {}{hint}", either(&could), self.found()));
        false
    }

    /// The word that is meant, or how the statement is written.
    fn hint(&self, words: &[&str], may_end: bool) -> String {
        let token = self.line.tokens.get(self.at);
        let word = token.and_then(Placed::word).unwrap_or("");
        if let Some(meant) = meant_word(word, words) {
            format!("; did you mean '{meant}'?")
        } else if may_end && LEFT_OUT.contains(&word) {
            format!("; leave '{word}' out")
        } else if token.is_some_and(|token| token.is(",")) {
            "; a statement takes one name, or a range as in crate1..crate40".to_string()
        } else if may_end && begins_statement(word) {
            "; each statement stands on a line of its own".to_string()
        } else if self.rows.len() <= 2 {
            let forms: Vec<String> = self.rows.iter().map(|row| format!("'{}'", row.words())).collect();
            format!("; write {}", either(&forms))
        } else {
            String::new()
        }
    }

    pub(super) fn expected_value(&mut self, part: Part) -> bool {
        let hint = match self.line.tokens.get(self.at).map(|token| &token.token) {
            Some(Token::Number(ticks)) if self.rows[0].name() == TICKS.0 => {
                format!("; did you mean '{} {ticks}'?", TICKS.1)
            }
            Some(Token::Mark(_)) => self.hint(&[], false),
            _ => String::new(),
        };
        self.report.error(self.here(), format!("expected {}, found {}{hint}", in_words(part), self.found()));
        false
    }
}

fn in_words(part: Part) -> &'static str {
    match part {
        Part::X(wants) | Part::Y(wants) => wants.words(),
        Part::T => "a whole number",
        Part::Number => "the number of an accumulator, 1 to 64",
        Part::Record => "a label",
        Part::Word(word) => word,
    }
}

/// 'a', 'b' or 'c'.
fn either(list: &[String]) -> String {
    match list {
        [] => String::new(),
        [one] => one.clone(),
        [most @ .., last] => format!("{} or {last}", most.join(", ")),
    }
}
