//! What a newcomer perhaps means: the language's words, and words that stand for them elsewhere.

use super::declare::LISTS;
use crate::nearest::nearest;
use crate::operations::{self, Part, FIRST, FIRST_PROCESS, TABLE};

/// Words of the language beside those of the table of operations and of the lists.
const WORDS: [&str; 7] = ["from", "goto", "end", "none", "current", FIRST, FIRST_PROCESS];

/// What newcomers write, and the word of the language for it.
const ELSEWHERE: &[(&str, &str)] = &[
    ("queue", "heads"),
    ("queues", "heads"),
    ("sets", "heads"),
    ("items", "links"),
    ("add", "into"),
    ("enter", "into"),
    ("insert", "into"),
    ("put", "into"),
    ("leave", "out"),
    ("remove", "out"),
    ("sleep", "hold"),
    ("start", "activate"),
    ("wake", "activate"),
    ("go", "goto"),
    ("jump", "goto"),
    ("exit", "end"),
    ("finish", "end"),
    ("stop", "end"),
    ("terminate", "end"),
    ("in", "delay"),
];

pub fn is_reserved(word: &str) -> bool {
    let in_table = |part: &Part| matches!(part, Part::Word(own) if *own == word);
    let is_list = LISTS.iter().any(|list| list.0 == word);
    is_list || WORDS.contains(&word) || TABLE.iter().any(|row| row.form.iter().any(in_table))
}

/// Whether a statement begins with this word.
pub fn begins_statement(word: &str) -> bool {
    word == "goto" || word == "end" || TABLE.iter().any(|row| row.name() == word)
}

/// All words that a statement begins with.
pub fn statement_words() -> Vec<&'static str> {
    let mut words = operations::names();
    words.extend(["goto", "end"]);
    words
}

/// The one of these words that is meant: the nearest, or the one that stands for a word from elsewhere.
pub fn meant_word<'a>(word: &str, among: &[&'a str]) -> Option<&'a str> {
    let elsewhere = ELSEWHERE.iter().find(|(other, _)| *other == word.to_lowercase()).map(|(_, own)| *own);
    let own = among.iter().find(|own| elsewhere == Some(own));
    own.copied().or_else(|| nearest(word, among.iter().copied()))
}

/// The statement that begins with two words, if they were written with a hyphen: if-empty.
pub fn written_apart(first: &str, second: &str) -> Option<String> {
    let title = format!("{first} {second}");
    TABLE.iter().find(|row| row.title() == title).map(|row| row.words())
}
