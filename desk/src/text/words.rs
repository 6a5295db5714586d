//! Words and numbers of a text.

use super::hints::{is_reserved, written_apart};
use super::lex::Lexer;
use super::token::{in_name, is_letter, Token};
use crate::names::{cut, range_size};

/// A longer word is told, and cut.
const MOST_LETTERS: usize = 100;

impl Lexer<'_> {
    fn taken(&mut self, fits: fn(char) -> bool) -> String {
        let from = self.at;
        while self.at < self.chars.len() && fits(self.peek(0)) {
            self.at += 1;
        }
        let most = from + MOST_LETTERS.min(self.at - from);
        if self.at > most {
            let words = format!("{} letters in a row: a name or number has at most {MOST_LETTERS}", self.at - from);
            self.report.error(self.place(from), words);
        }
        self.chars[from..most].iter().collect()
    }

    /// Whether the word goes on behind a hyphen, or behind a '#' as in bench#2.
    fn goes_on(&self) -> bool {
        matches!(self.peek(0), '-' | '#') && in_name(self.peek(1))
    }

    /// A word. One that goes on is a mistake: a range, two words of a statement, or a name, which is read as if it had an underscore.
    pub(super) fn word(&mut self) {
        let from = self.at;
        let word = self.taken(in_name);
        let (hyphen, sign) = (self.at, self.peek(0));
        if !self.goes_on() || is_reserved(&word) && (sign == '#' || self.peek(1).is_ascii_digit()) {
            return self.push(Token::Word(word), from);
        }
        self.at += 1;
        let next = self.taken(in_name);
        if sign == '#' {
            self.name_of_parts(format!("{word}_{next}"), from, hyphen);
        } else if let Some(last) = range_end(&word, &next) {
            let words = format!("'-' cannot stand here: a range is written '{word}..{last}'");
            self.report.error(self.place(hyphen), words);
            self.push(Token::Word(word), from);
            self.push(Token::Mark(".."), hyphen);
            self.push(Token::Word(last), hyphen + 1);
        } else if let Some(form) = written_apart(&word, &next) {
            self.report.error(self.place(hyphen), format!("'-' cannot stand here: write '{form}'"));
            self.report.spoil(self.place(hyphen));
            self.push(Token::Word(word), from);
            self.push(Token::Word(next), hyphen + 1);
        } else {
            self.name_of_parts(format!("{word}_{next}"), from, hyphen);
        }
    }

    fn name_of_parts(&mut self, mut word: String, from: usize, hyphen: usize) {
        while self.goes_on() {
            self.at += 1;
            let next = self.taken(in_name);
            if word.len() < MOST_LETTERS {
                word = format!("{word}_{next}");
            }
        }
        let comment = if self.chars[hyphen] == '#' { "; a comment has a space before it" } else { "" };
        let words = format!("'{}' cannot stand in a name: write '{word}'{comment}", self.chars[hyphen]);
        self.report.error(self.place(hyphen), words);
        self.push(Token::Word(word), from);
    }

    /// A whole number; with a fraction or letters behind it it is a word, which is no name and no number.
    pub(super) fn number(&mut self) {
        let from = self.at;
        let sign = if self.peek(0) == '-' { "-" } else { "" };
        self.at += sign.len();
        let digits = self.taken(|c| c.is_ascii_digit());
        let (c, next) = (self.peek(0), self.peek(1));
        let goes_on = is_letter(c) || (c == '.' && next != '.') || (c == ',' && next.is_ascii_digit());
        if goes_on {
            let rest = self.taken(|c| in_name(c) || c == '.' || c == ',');
            self.push(Token::Word(format!("{sign}{digits}{rest}")), from);
        } else {
            self.push(Token::Number(format!("{sign}{digits}")), from);
        }
    }
}

/// The second end of a range that was written with a hyphen: crate1-crate40 or crate1-40.
fn range_end(first: &str, next: &str) -> Option<String> {
    let stem = if next.starts_with(is_letter) { "" } else { cut(first)?.0 };
    let last = format!("{stem}{next}");
    range_size(first, &last).is_ok().then_some(last)
}
