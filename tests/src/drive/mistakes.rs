//! Texts with mistakes and without: the desk's exit status and all that it says, line by line.

use super::cases::{self, TextCase};
use super::child::Program;
use super::desk::{Desk, Ended};
use super::tally::Tally;
use crate::sim::sheet;
use std::fmt::Write;

const TEXT: &str = "model.txt";
const SHEET: &str = "model.sheet";
const MAP: &str = "model.sheet.map";

/// Tries every case of a file.
pub fn drive(program: &Program, file: &str) -> bool {
    let mut tally = Tally::new("mistakes", 100);
    match prepare(program, file) {
        Err(error) => tally.fail(&error),
        Ok((desk, cases)) => {
            for case in &cases {
                match one(&desk, case) {
                    Ok(()) => tally.pass(),
                    Err(error) => tally.fail(&format!("'{}', line {} of {file}\n{error}", case.name, case.line)),
                }
            }
        }
    }
    tally.close()
}

fn prepare(program: &Program, file: &str) -> Result<(Desk, Vec<TextCase>), String> {
    let text = std::fs::read_to_string(file).map_err(|e| format!("{file}: {e}"))?;
    Ok((Desk::new(program, "mistakes")?, cases::read(&text)?))
}

/// Checked and built: both have to say the same, and only a good text leaves a sheet.
fn one(desk: &Desk, case: &TextCase) -> Result<(), String> {
    desk.write(TEXT, &case.text)?;
    desk.remove(&[SHEET, MAP]);
    let checked = desk.start(&["check", TEXT])?;
    compare("check", case, &checked)?;
    let built = desk.start(&["build", TEXT, SHEET])?;
    compare("build", case, &built)?;
    if case.status != 0 {
        return unbuilt(desk, &[checked, built]);
    }
    let bytes = desk.read(SHEET)?;
    sheet::decode(&bytes).map_err(|_| "the sheet that was built is refused with 8".to_string())?;
    if desk.has(MAP) {
        Ok(())
    } else {
        Err("no map beside the sheet that was built".to_string())
    }
}

/// A text with mistakes leaves nothing behind, and nothing on standard output.
fn unbuilt(desk: &Desk, starts: &[Ended]) -> Result<(), String> {
    if desk.has(SHEET) || desk.has(MAP) {
        return Err("build leaves a sheet or a map".to_string());
    }
    match starts.iter().find(|ended| !ended.out.is_empty()) {
        Some(ended) => Err(format!("on standard output: {}", String::from_utf8_lossy(&ended.out))),
        None => Ok(()),
    }
}

fn compare(what: &str, case: &TextCase, ended: &Ended) -> Result<(), String> {
    if ended.status == Some(case.status) && ended.err == case.err {
        return Ok(());
    }
    let mut out = format!("{what}: wanted exit status {}, got {:?}\n", case.status, ended.status);
    let (wanted, got): (Vec<&str>, Vec<&str>) = (lines(&case.err), lines(&ended.err));
    for line in wanted.iter().filter(|line| !got.contains(line)) {
        let _ = writeln!(out, "  wanted {line}");
    }
    for line in got.iter().filter(|line| !wanted.contains(line)) {
        let _ = writeln!(out, "     got {line}");
    }
    if wanted.len() == got.len() && wanted.iter().all(|line| got.contains(line)) {
        out.push_str("  the same lines in another order\n");
    }
    Err(out)
}

/// The lines with their ends, so that a lost newline shows.
fn lines(text: &str) -> Vec<&str> {
    text.split_inclusive('\n').map(|line| line.strip_suffix('\n').unwrap_or("a line without its end")).collect()
}
