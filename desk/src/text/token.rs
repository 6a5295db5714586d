//! Words, numbers and marks of a text, and its lines of them.

use crate::report::Place;
use std::collections::HashSet;

#[derive(Clone, PartialEq, Eq, Debug)]
pub enum Token {
    /// A word: a name, one of the language's, or digits with something behind them, which are neither.
    Word(String),
    /// Digits, perhaps behind a minus.
    Number(String),
    /// One of : ( ) , ..
    Mark(&'static str),
}

impl Token {
    /// As the text has it.
    pub fn text(&self) -> &str {
        match self {
            Token::Word(text) | Token::Number(text) => text,
            Token::Mark(mark) => mark,
        }
    }
}

#[derive(Clone, Debug)]
pub struct Placed {
    pub token: Token,
    pub place: Place,
}

impl Placed {
    pub fn is(&self, mark: &str) -> bool {
        matches!(self.token, Token::Mark(m) if m == mark)
    }

    /// The word that stands here, if it is one.
    pub fn word(&self) -> Option<&str> {
        if let Token::Word(word) = &self.token {
            Some(word)
        } else {
            None
        }
    }
}

/// A line that has tokens.
#[derive(Clone, Debug)]
pub struct Line {
    pub indented: bool,
    pub tokens: Vec<Placed>,
    /// The place behind its last token.
    pub end: Place,
}

pub fn is_letter(c: char) -> bool {
    c.is_alphabetic() || c == '_'
}

pub fn in_name(c: char) -> bool {
    is_letter(c) || c.is_ascii_digit()
}

/// What stands right behind one of these words, anywhere in the lines.
pub fn behind<'a>(words: &[&str], lines: &'a [Line]) -> HashSet<&'a str> {
    let pairs = lines.iter().flat_map(|line| line.tokens.windows(2));
    let found = pairs.filter(|two| two[0].word().is_some_and(|word| words.contains(&word)));
    found.map(|two| two[1].token.text()).collect()
}
