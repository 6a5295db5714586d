//! One statement, read by the table of operations.

use super::declare::Declared;
use super::hints::{is_reserved, meant_word, statement_words};
use super::token::{Line, Placed, Token};
use crate::operations::{Part, Row, TABLE};
use crate::report::{Place, Report};
use crate::sheet::{Record, MAX_ACCUMULATORS};

/// What a statement says: a record for each name of its range, or one; and the label that it may go to.
#[derive(Debug)]
pub struct Statement {
    pub row: &'static Row,
    pub records: Vec<Record>,
    pub label: Option<(String, Place)>,
    /// Where its x and its y stand.
    pub x_place: Place,
    pub y_place: Place,
}

/// Reads the words of a line from a token on; nothing if they are no statement. Of a range only the ends are looked at where not all
/// names count.
pub fn read(line: &Line, from: usize, all_names: bool, declared: &Declared, report: &mut Report) -> Option<Statement> {
    let first = &line.tokens[from];
    let rows: Vec<&'static Row> = TABLE.iter().filter(|row| Some(row.name()) == first.word()).collect();
    let Some(row) = rows.first() else {
        report.error(first.place, no_statement(first, declared));
        return None;
    };
    let place = first.place;
    let read = Statement { row, records: vec![Record::default()], label: None, x_place: place, y_place: place };
    let mut reader = Reader { line, at: from + 1, all_names, declared, report, rows, read };
    reader.all().then(|| reader.finished())
}

/// What stands at a statement's beginning is none.
fn no_statement(found: &Placed, declared: &Declared) -> String {
    let text = found.token.text();
    let hint = if let Some(named) = declared.find(text) {
        format!("it is {}, and the word of a statement comes first, as in 'into X Y'", named.is())
    } else if is_reserved(text) {
        "it cannot begin one, and a statement does not go on in a second line".to_string()
    } else if let Some(word) = meant_word(text, &statement_words()) {
        format!("did you mean '{word}'?")
    } else {
        "'./sheet words' prints them all".to_string()
    };
    format!("expected a statement, found '{text}'; {hint}")
}

/// Goes along the tokens of a statement.
pub(super) struct Reader<'a> {
    pub(super) line: &'a Line,
    pub(super) at: usize,
    pub(super) all_names: bool,
    pub(super) declared: &'a Declared,
    pub(super) report: &'a mut Report,
    /// The rows whose words are those read so far.
    pub(super) rows: Vec<&'static Row>,
    pub(super) read: Statement,
}

impl Reader<'_> {
    /// Goes along the words and the rows side by side.
    fn all(&mut self) -> bool {
        for part in 1.. {
            let Some(here) = self.line.tokens.get(self.at) else {
                return self.narrow(part, |part| part.is_none()) || self.expected(part);
            };
            let word = here.word();
            if self.narrow(part, |part| matches!(part, Some(Part::Word(w)) if word == Some(w))) {
                self.at += 1;
            } else if self.narrow(part, |part| !matches!(part, None | Some(Part::Word(_)))) {
                if !self.value(self.rows[0].form[part]) {
                    return false;
                }
            } else {
                return self.expected(part);
            }
        }
        false
    }

    /// Keeps the rows that go on so, if there are any.
    fn narrow(&mut self, part: usize, fits: impl Fn(Option<&Part>) -> bool) -> bool {
        let rows: Vec<&Row> = self.rows.iter().filter(|row| fits(row.form.get(part))).copied().collect();
        let some = !rows.is_empty();
        if some {
            self.rows = rows;
        }
        some
    }

    fn finished(self) -> Statement {
        let row = self.rows[0];
        let records = self.read.records.iter().map(|r| Record { operation: row.operation, clause: row.clause, ..*r });
        Statement { row, records: records.collect(), ..self.read }
    }

    /// Reads a value; false where nothing more can be read of the line.
    fn value(&mut self, part: Part) -> bool {
        match part {
            Part::X(wants) => self.x(wants),
            Part::Y(wants) => {
                self.read.y_place = self.here();
                let Some(y) = self.operand(wants) else { return false };
                self.each(|record| record.y = y);
                true
            }
            Part::T => {
                let most = "the sheet's numbers lie between -9223372036854775808 and 9223372036854775807";
                let Some(t) = self.number(part, most, |_| true) else { return false };
                self.each(|record| record.t = t);
                true
            }
            Part::Number => {
                let most = "accumulators are numbered from 1 to 64";
                let fits = |n: i64| (1..=i64::from(MAX_ACCUMULATORS)).contains(&n);
                let Some(n) = self.number(part, most, fits) else { return false };
                self.each(|record| record.x = n as u32);
                true
            }
            Part::Record | Part::Word(_) => self.label(),
        }
    }

    pub(super) fn each(&mut self, set: impl Fn(&mut Record)) {
        self.read.records.iter_mut().for_each(set);
    }

    fn label(&mut self) -> bool {
        let here = &self.line.tokens[self.at];
        let Some(word) = here.word() else { return self.expected_value(Part::Record) };
        self.read.label = Some((word.to_string(), here.place));
        self.at += 1;
        true
    }

    fn number(&mut self, part: Part, limits: &str, fits: fn(i64) -> bool) -> Option<i64> {
        let here = &self.line.tokens[self.at];
        let Token::Number(digits) = &here.token else {
            self.expected_value(part);
            return None;
        };
        self.at += 1;
        let number = digits.parse::<i64>().ok().filter(|n| fits(*n));
        if number.is_none() {
            self.report.error(here.place, format!("{digits} will not do: {limits}"));
        }
        Some(number.unwrap_or(1))
    }
}
