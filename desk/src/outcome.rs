//! How a command ends: its exit status, and what it says where that is not 0.

use crate::files;
use std::io::Write;

pub const MISTAKES: u8 = 1;
pub const NO_ENGINE: u8 = 1;
pub const MISUSED: u8 = 2;
pub const STOPPED: u8 = 3;
pub const REFUSED: u8 = 4;
pub const SHEET_REFUSED: u8 = 5;
pub const OUTPUT_LOST: u8 = 6;

/// An exit status other than 0, and the lines to say.
pub struct Failure {
    pub status: u8,
    pub lines: String,
}

pub type Outcome = Result<(), Failure>;

/// Lines that stand for themselves.
pub fn failure(status: u8, lines: impl Into<String>) -> Failure {
    Failure { status, lines: lines.into() }
}

/// One line of the command that the user has typed, ./run or ./sheet.
pub fn by(command: &str, status: u8, words: &str) -> Failure {
    failure(status, format!("{command}: {words}\n"))
}

pub fn lost(command: &str, error: &std::io::Error) -> Failure {
    by(command, OUTPUT_LOST, &format!("output lost: {}", files::lost(error)))
}

/// Prints to standard output.
pub fn print(text: &str) -> Outcome {
    let mut out = std::io::stdout().lock();
    out.write_all(text.as_bytes()).and_then(|()| out.flush()).map_err(|error| lost("./sheet", &error))
}

/// Says something on standard error, beside what the command does.
pub fn remark(lines: &str) {
    let _ = std::io::stderr().write_all(lines.as_bytes());
}
