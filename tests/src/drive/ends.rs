//! Runs told by the desk: the printed run byte for byte, the exit status, and why it did not finish.

use super::child::Program;
use super::desk::{absolute, try_sheets, Desk, Ended};
use super::print::difference;
use super::tally::Tally;
use crate::gen::prints::PrintSource;
use crate::sim::print;
use crate::sim::run::{End, Run};
use crate::sim::sheet;

const SHEET: &str = "model.sheet";

/// Compares what is told of so many runs.
pub fn drive(program: &Program, printer: &str, sheets: u64, seed: u64) -> bool {
    let mut tally = Tally::new("ends", 100);
    let mut source = PrintSource::new(seed);
    match (Desk::new(program, "ends"), absolute(printer)) {
        (Ok(desk), Ok(printer)) => {
            try_sheets(&mut tally, sheets, || source.next(), |bytes| one(&desk, &printer, bytes));
        }
        (Err(error), _) | (_, Err(error)) => tally.fail(&error),
    }
    tally.close()
}

fn one(desk: &Desk, printer: &str, bytes: &[u8]) -> Result<(), String> {
    desk.write(SHEET, bytes)?;
    let ended = desk.start(&["run", printer, SHEET])?;
    let wanted = if bytes.contains(&0) { print::text(bytes) } else { String::new() }; // else it is read as a text
    if ended.out != wanted.as_bytes() {
        return Err(format!("standard output: {}; {}", difference(&wanted, &ended.out), ending(&ended)));
    }
    told(bytes, &wanted, &ended).map_err(|why| format!("{why}; {}", ending(&ended)))?;
    let with_names = desk.start(&["run", "--names", printer, SHEET])?;
    if (with_names.status, &with_names.err) != (ended.status, &ended.err) {
        return Err(format!("with names {}; without {}", ending(&with_names), ending(&ended)));
    }
    named(&wanted, &String::from_utf8_lossy(&with_names.out))
}

/// With names each line begins as it does without, and has a name and a statement behind its numbers; the last is the same.
fn named(wanted: &str, got: &str) -> Result<(), String> {
    let (lines, steps) = (wanted.lines().count(), wanted.lines().count().saturating_sub(1));
    if got.lines().count() != lines || got.lines().last() != wanted.lines().last() {
        return Err("another number of lines, or another last line, with names".to_string());
    }
    let has_both =
        |plain: &str, line: &str| line.strip_prefix(plain).is_some_and(|b| b.split_whitespace().count() >= 2);
    let bare = wanted.lines().zip(got.lines()).take(steps).find(|(plain, line)| !has_both(plain, line));
    bare.map_or(Ok(()), |(plain, line)| Err(format!("with names '{plain}' is '{line}'")))
}

/// Exit status and standard error by the last line that was printed.
fn told(bytes: &[u8], printed: &str, ended: &Ended) -> Result<(), String> {
    let last = printed.lines().last().unwrap_or("a text with mistakes");
    let word = last.split(' ').next().unwrap_or("");
    let (status, silent) = match word {
        "finished" => (0, true),
        "stopped" => (3, false),
        "refused" => (4, false),
        _ => (5, false),
    };
    let first = ended.err.lines().next().unwrap_or("");
    if ended.status != Some(status) {
        return Err(format!("wanted exit status {status} after '{last}'"));
    }
    if ended.err.is_empty() != silent {
        return Err(format!("standard error after '{last}'"));
    }
    if has_words(&ended.err, "differs") {
        return Err("the desk sees another run than the program".to_string());
    }
    let missing = refused_words(bytes).into_iter().find(|words| !has_words(first, words));
    missing.map_or(Ok(()), |words| Err(format!("no '{words}' in the first line of standard error")))
}

/// What has to be told of a refused step: number, process and tick. Nothing for other runs.
fn refused_words(bytes: &[u8]) -> Vec<String> {
    let Ok(sheet) = sheet::decode(bytes) else { return Vec::new() };
    let mut run = Run::fresh(&sheet);
    for _ in 0..print::MOST_STEPS {
        match run.turn(&sheet, usize::MAX) {
            Ok(_) => {}
            Err(End::Refused(number)) => {
                let process = run.model.current();
                let main = process == sheet.counts.main();
                let name = if main { "main".to_string() } else { format!("process{process}") };
                return vec![format!("refused {number}"), name, format!("tick {}", run.model.time())];
            }
            Err(_) => break,
        }
    }
    Vec::new()
}

/// Whether the words stand in the line, not as part of longer ones.
fn has_words(line: &str, words: &str) -> bool {
    let in_word = |c: Option<char>| c.is_some_and(|c| c.is_alphanumeric() || c == '_');
    line.match_indices(words)
        .any(|(at, _)| !in_word(line[..at].chars().next_back()) && !in_word(line[at + words.len()..].chars().next()))
}

fn ending(ended: &Ended) -> String {
    format!("exit status {:?}, standard error:\n{}", ended.status, ended.err)
}
