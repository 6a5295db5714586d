//! Sheets shown as texts by the desk: the text of every accepted sheet builds the same bytes again. And texts written apart from the desk,
//! which have to build the sheets that they were written from.

use super::child::Program;
use super::desk::{try_sheets, Desk, Ended};
use super::print::difference;
use super::tally::Tally;
use crate::gen::shown::ShownSource;
use crate::gen::texts;
use crate::sim::sheet;

/// The sheet, its text, and the sheet built from the text.
const SHEET: &str = "model.sheet";
const TEXT: &str = "model.txt";
const AGAIN: &str = "again.sheet";
const AGAIN_MAP: &str = "again.sheet.map";

/// Compares so many sheets with those built from their texts.
pub fn drive(program: &Program, sheets: u64, seed: u64) -> bool {
    let mut tally = Tally::new("sheets", 500);
    let mut source = ShownSource::new(seed);
    match Desk::new(program, "sheets") {
        Ok(desk) => try_sheets(&mut tally, sheets, || source.next(), |bytes| one(&desk, bytes)),
        Err(error) => tally.fail(&error),
    }
    tally.close()
}

fn one(desk: &Desk, bytes: &[u8]) -> Result<(), String> {
    desk.write(SHEET, bytes)?;
    desk.remove(&[TEXT, AGAIN, AGAIN_MAP]);
    match sheet::decode(bytes) {
        Ok(sheet) => {
            accepted(desk, bytes)?;
            up_to_date("build of a text written apart", &written(desk, &texts::text(&sheet, false), bytes)?)?;
            written(desk, &texts::text(&sheet, true), bytes).map(|_| ())
        }
        Err(_) => refused(&desk.start(&["show", SHEET])?),
    }
}

/// Shown, checked, built, and shown once more with the map beside it.
fn accepted(desk: &Desk, bytes: &[u8]) -> Result<(), String> {
    let text = shown(desk, SHEET)?;
    desk.write(TEXT, &text)?;
    let checked = desk.start(&["check", TEXT])?;
    done("check", &checked)?;
    up_to_date("check", &checked)?;
    done("build", &desk.start(&["build", TEXT, AGAIN])?)?;
    let again = desk.read(AGAIN)?;
    if again != bytes {
        return Err(format!("its text builds other bytes: {}", first_other(bytes, &again)));
    }
    if !desk.has(AGAIN_MAP) {
        return Err("no map beside the sheet that was built".to_string());
    }
    let text = String::from_utf8_lossy(&text).into_owned();
    let twice = shown(desk, AGAIN)?;
    if twice != text.as_bytes() {
        return Err(format!("another text with its map beside it: {}", difference(&text, &twice)));
    }
    Ok(())
}

/// A text that is written here builds the sheet; what is said of it is the answer.
fn written(desk: &Desk, text: &str, bytes: &[u8]) -> Result<Ended, String> {
    desk.write(TEXT, text.as_bytes())?;
    desk.remove(&[AGAIN, AGAIN_MAP]);
    let ended = desk.start(&["build", TEXT, AGAIN])?;
    done("build of a text written apart", &ended)?;
    let built = desk.read(AGAIN)?;
    if built == bytes {
        return Ok(ended);
    }
    Err(format!("a text written apart builds other bytes: {}\n{text}", first_other(bytes, &built)))
}

/// No warning that an older word stands in the text.
fn up_to_date(what: &str, ended: &Ended) -> Result<(), String> {
    let old = ended.err.lines().find(|line| line.contains("first_process"));
    old.map_or(Ok(()), |line| Err(format!("{what}: {line}")))
}

/// What show prints, with nothing on standard error.
fn shown(desk: &Desk, name: &str) -> Result<Vec<u8>, String> {
    let ended = desk.start(&["show", name])?;
    done("show", &ended)?;
    if !ended.err.is_empty() {
        return Err(format!("show {name} says on standard error: {}", ended.err));
    }
    Ok(ended.out)
}

/// Exit status 0, and nothing but warnings on standard error.
fn done(what: &str, ended: &Ended) -> Result<(), String> {
    let warned = ended.err.lines().all(|line| line.contains(": warning: "));
    if ended.status == Some(0) && warned {
        return Ok(());
    }
    Err(format!("{what}: exit status {:?}, standard error: {}", ended.status, ended.err))
}

/// Exit status 1 and one line that says so.
fn refused(ended: &Ended) -> Result<(), String> {
    let begin = format!("{SHEET}: error: this is no sheet: ");
    let told = ended.err.starts_with(&begin) && ended.err.ends_with('\n') && ended.err.lines().count() == 1;
    if ended.status == Some(1) && told && ended.out.is_empty() {
        return Ok(());
    }
    let out = ended.out.len();
    Err(format!("show: exit status {:?}, {out} bytes of output, standard error: {}", ended.status, ended.err))
}

fn first_other(wanted: &[u8], got: &[u8]) -> String {
    match wanted.iter().zip(got).position(|(w, g)| w != g) {
        Some(at) => format!("byte {at}: wanted {}, got {}", wanted[at], got[at]),
        None => format!("wanted {} bytes, got {}", wanted.len(), got.len()),
    }
}
