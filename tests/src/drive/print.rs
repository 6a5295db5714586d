//! The printing program: a sheet on standard input, the whole output compared.

use super::child::Program;
use super::report::sheet_text;
use super::tally::Tally;
use crate::gen::prints::PrintSource;
use crate::sim::{print, sheet};

/// Compares what is printed for so many sheets.
pub fn drive(program: &Program, sheets: u64, seed: u64) -> bool {
    let mut tally = Tally::new("print", 100);
    let mut source = PrintSource::new(seed);
    for _ in 0..sheets {
        if tally.failed() {
            break;
        }
        one(program, &source.next(), &mut tally);
    }
    tally.close()
}

fn one(program: &Program, bytes: &[u8], tally: &mut Tally) {
    let wanted = print::text(bytes);
    match program.feed(bytes.to_vec()) {
        Err(error) => tally.fail(&error),
        Ok(output) if output.bytes == wanted.as_bytes() => tally.pass(),
        Ok(output) => tally.fail(&format!("{}{}", describe(bytes), difference(&wanted, &output.bytes))),
    }
}

pub fn describe(bytes: &[u8]) -> String {
    match sheet::decode(bytes) {
        Ok(sheet) => sheet_text(&sheet),
        Err(_) => format!("a sheet of {} bytes that is refused with 8\n", bytes.len()),
    }
}

/// The first line that differs.
pub fn difference(wanted: &str, got: &[u8]) -> String {
    let got = String::from_utf8_lossy(got);
    let mut lines = wanted.split('\n').zip(got.split('\n')).enumerate();
    match lines.find(|(_, (w, g))| w != g) {
        Some((i, (w, g))) => format!("line {}: wanted {w:?}, got {g:?}", i + 1),
        None => format!("wanted {} bytes, got {}", wanted.len(), got.len()),
    }
}
