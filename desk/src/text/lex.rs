//! A text's lines as tokens.

use super::token::{in_name, is_letter, Line, Placed, Token};
use crate::report::{Place, Report};

/// What begins a comment elsewhere.
const OTHER_COMMENTS: [&str; 3] = ["//", "/*", "--"];

/// The lines of a text that are not empty, without their comments.
pub fn lines(text: &str, report: &mut Report) -> Vec<Line> {
    let text = text.strip_prefix('\u{feff}').unwrap_or(text).replace("\r\n", "\n").replace('\r', "\n");
    let (chars, tokens, lines) = (Vec::new(), Vec::new(), Vec::new());
    let mut lexer = Lexer { chars, at: 0, end: 0, line: 0, in_block: false, tokens, lines, report };
    for line in text.split('\n') {
        lexer.begin(line);
        lexer.all();
        lexer.close();
    }
    lexer.lines
}

pub(super) struct Lexer<'a> {
    /// Those of the line.
    pub(super) chars: Vec<char>,
    pub(super) at: usize,
    /// Where its last token ends.
    end: usize,
    line: u32,
    /// In a comment of many lines, which is told where it begins.
    in_block: bool,
    tokens: Vec<Placed>,
    lines: Vec<Line>,
    pub(super) report: &'a mut Report,
}

impl Lexer<'_> {
    pub(super) fn peek(&self, ahead: usize) -> char {
        self.chars.get(self.at + ahead).copied().unwrap_or('\n')
    }

    pub(super) fn place(&self, at: usize) -> Place {
        Place { line: self.line, column: at as u32 + 1 }
    }

    fn begin(&mut self, line: &str) {
        (self.chars, self.at, self.line) = (line.chars().collect(), 0, self.line + 1);
        if self.in_block {
            self.skip_block();
        }
    }

    fn all(&mut self) {
        while self.at < self.chars.len() && self.peek(0) != '#' && !self.report.is_full() {
            let tokens = self.tokens.len();
            match self.peek(0) {
                ' ' | '\t' => self.at += 1,
                ';' => self.semicolon(),
                _ => self.one(),
            }
            if self.tokens.len() > tokens {
                self.end = self.at;
            }
        }
        if self.peek(0) == '#' {
            self.comment();
        }
    }

    /// A comment, which has a space before it.
    fn comment(&mut self) {
        let place = self.place(self.at);
        if self.at > 0 && in_name(self.chars[self.at - 1]) {
            self.report.error(place, "'#' begins a comment, and has a space before it");
            self.report.spoil(place);
        }
    }

    /// The tokens so far are a line.
    fn close(&mut self) {
        if !self.tokens.is_empty() {
            let (indented, end) = (self.chars[0].is_whitespace(), self.place(self.end));
            self.lines.push(Line { indented, tokens: std::mem::take(&mut self.tokens), end });
        }
    }

    /// A mistake; what stands behind it is read as a line of its own.
    fn semicolon(&mut self) {
        let words = "';' has no meaning here: each statement stands on a line of its own";
        self.report.error(self.place(self.at), words);
        self.close();
        self.at += 1;
    }

    fn one(&mut self) {
        match self.peek(0) {
            c if is_letter(c) => self.word(),
            c if c.is_ascii_digit() => self.number(),
            '-' | '.' if self.peek(1).is_ascii_digit() => self.number(),
            ':' => self.mark(":"),
            '(' => self.mark("("),
            ')' => self.mark(")"),
            ',' => self.mark(","),
            '.' if self.peek(1) == '.' => self.dots(),
            _ => self.no_token(),
        }
    }

    pub(super) fn push(&mut self, token: Token, from: usize) {
        let place = self.place(from);
        self.tokens.push(Placed { token, place });
    }

    fn mark(&mut self, mark: &'static str) {
        self.push(Token::Mark(mark), self.at);
        self.at += mark.len();
    }

    fn dots(&mut self) {
        self.mark("..");
        if self.peek(0) == '.' {
            self.report.error(self.place(self.at), "a range has two dots, as in crate1..crate40");
        }
        while self.peek(0) == '.' {
            self.at += 1;
        }
    }

    /// A character that has no meaning: it is told, and the rest of the line is not judged; that of a comment is not read.
    fn no_token(&mut self) {
        let (place, c) = (self.place(self.at), self.peek(0));
        let two: String = [c, self.peek(1)].iter().collect();
        if c.is_whitespace() {
            let words = format!("U+{:04X} is a space of another kind: write a plain one", c as u32);
            self.report.error(place, words);
            self.at += 1;
        } else if OTHER_COMMENTS.contains(&&two[..]) {
            self.report.error(place, format!("'{two}' has no meaning here: a comment begins with '#'"));
            self.in_block = two == "/*";
            self.skip_block();
        } else {
            let next = self.chars[self.at + 1..].iter().find(|c| !c.is_whitespace());
            self.report.error(place, format!("{} has no meaning here{}", shown(c), advice(c, next)));
            self.report.spoil(place);
            self.at += 1;
        }
    }

    /// To the end of a comment of many lines, or of this line of it.
    fn skip_block(&mut self) {
        let end = self.chars[self.at..].windows(2).position(|two| self.in_block && two == ['*', '/']);
        self.at = end.map_or(self.chars.len(), |end| self.at + end + 2);
        self.in_block &= end.is_none();
    }
}

/// A character as a message names it: one that may look like another, or like nothing, by its number too.
fn shown(c: char) -> String {
    let number = format!("U+{:04X}", c as u32);
    match c {
        _ if c.is_ascii_graphic() => format!("'{c}'"),
        _ if c.is_ascii() || c.is_control() => number,
        _ => format!("'{c}' ({number})"),
    }
}

fn advice(c: char, next: Option<&char>) -> &'static str {
    match c {
        '-' if next.is_some_and(char::is_ascii_digit) => ": a minus stands right before its number",
        '"' | '\'' | '\u{2018}'..='\u{201f}' => ": names stand without quotes",
        _ => "",
    }
}
