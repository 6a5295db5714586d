//! Runs: the engine's print passed on byte for byte, or with names beside it, and the end told in words.

use crate::files;
use crate::load::{file, map_beside, text};
use crate::map::Map;
use crate::outcome::{by, failure, lost, remark, Failure, Outcome};
use crate::outcome::{NO_ENGINE, REFUSED, SHEET_REFUSED, STOPPED};
use crate::replay::{Refusal, Replay};
use crate::sheet::{self, Sheet};
use crate::why;
use std::io::{BufRead, BufReader, BufWriter, Write};
use std::process::{Child, Command, Stdio};

const RUN: &str = "./run";

/// After so many steps at one tick a loop without a hold is likely.
const LONG_AT_ONE_TICK: u64 = 100_000;

/// What is run: the sheet's bytes, and what they say or why they say nothing.
struct Model {
    bytes: Vec<u8>,
    read: Result<(Sheet, Map), String>,
}

/// A text is built, and its warnings are said; a sheet is taken as it is.
fn load(path: &str) -> Result<(Model, String), Failure> {
    let bytes = file(RUN, path)?;
    if files::is_text(&bytes) {
        let (sheet, map, warnings) = text(path, &bytes, SHEET_REFUSED)?;
        return Ok((Model { bytes: sheet.encode(), read: Ok((sheet, map)) }, warnings));
    }
    let read = sheet::decode(&bytes).map(|sheet| {
        let map = map_beside(path, &sheet, &bytes);
        (sheet, map)
    });
    Ok((Model { bytes, read }, String::new()))
}

/// Whether a model can be run: it is a file, and its text has no mistake. Nothing else is said.
pub fn ready(path: &str) -> Outcome {
    let bytes = file(RUN, path)?;
    if files::is_text(&bytes) {
        text(path, &bytes, SHEET_REFUSED)?;
    }
    Ok(())
}

pub fn run(engine: &str, path: &str, names: bool) -> Outcome {
    let (model, warnings) = load(path)?;
    remark(&warnings);
    let mut child = start(engine, &model.bytes)?;
    let map = model.read.as_ref().ok().filter(|_| names).map(|(_, map)| map);
    let copied = copy(&mut child, map);
    if copied.is_err() {
        let _ = child.kill();
    }
    let ended = child.wait();
    let seen = copied.map_err(|error| lost(RUN, &error))?;
    match ended {
        Ok(status) if status.success() => tell(path, &model, &seen),
        Ok(status) => Err(by(RUN, NO_ENGINE, &format!("the engine failed: {status}"))),
        Err(error) => Err(by(RUN, NO_ENGINE, &format!("the engine failed: {error}"))),
    }
}

/// Starts the engine and hands it the sheet, all of which it reads before it prints.
fn start(engine: &str, sheet: &[u8]) -> Result<Child, Failure> {
    let started = Command::new(engine).stdin(Stdio::piped()).stdout(Stdio::piped()).spawn();
    let mut child =
        started.map_err(|error| by(RUN, NO_ENGINE, &format!("the engine, {engine}, cannot be started: {error}")))?;
    if let Some(mut input) = child.stdin.take() {
        let _ = input.write_all(sheet); // of a sheet that is too long it does not take all
    }
    Ok(child)
}

/// What went by.
#[derive(Default)]
struct Seen {
    /// The line that tells the end.
    last: String,
    steps: u64,
    /// Time, process and record of the last step.
    step: [u64; 3],
    /// The step that was the first at this time.
    since: u64,
}

/// Passes the lines on; the error is one of writing.
fn copy(child: &mut Child, names: Option<&Map>) -> std::io::Result<Seen> {
    let mut seen = Seen::default();
    let Some(output) = child.stdout.take() else { return Ok(seen) };
    let (mut lines, mut line) = (BufReader::new(output), Vec::new());
    let mut out = BufWriter::with_capacity(1 << 16, std::io::stdout().lock());
    while lines.read_until(b'\n', &mut line).is_ok_and(|length| length > 0) {
        let text = String::from_utf8_lossy(&line);
        match (step(&text), names) {
            (None, _) => {
                out.write_all(&line)?;
                seen.last = text.trim_end().to_string();
            }
            (Some(step), None) => {
                out.write_all(&line)?;
                seen.count(step);
            }
            (Some(step), Some(map)) => {
                writeln!(out, "{}", beside(&text, step, map))?;
                seen.count(step);
            }
        }
        line.clear();
    }
    out.flush()?;
    Ok(seen)
}

/// Time, process and record of a line; nothing for the line that tells the end.
fn step(line: &str) -> Option<[u64; 3]> {
    let mut numbers = line.split_whitespace().map(|word| word.parse().ok());
    Some([numbers.next()??, numbers.next()??, numbers.next()??])
}

/// The line with the name and the statement beside its numbers, where the model has them.
fn beside(line: &str, [_, process, record]: [u64; 3], map: &Map) -> String {
    match map.step(process, record) {
        Some((name, statement, _)) => format!("{:<18} {name:<10} {statement}", line.trim_end()),
        None => line.trim_end().to_string(),
    }
}

impl Seen {
    fn count(&mut self, step: [u64; 3]) {
        self.steps += 1;
        if step[0] != self.step[0] || self.steps == 1 {
            self.since = self.steps;
        }
        self.step = step;
    }
}

/// Tells an end that is not finished, by the last line.
fn tell(path: &str, model: &Model, seen: &Seen) -> Outcome {
    let words: Vec<&str> = seen.last.split(' ').collect();
    match (&words[..], &model.read) {
        (["finished", _], _) => Ok(()),
        (["sheet", "refused", number], Ok(_)) => {
            Err(failure(SHEET_REFUSED, format!("{path}: sheet refused {number}: {}\n", differs("reads this sheet"))))
        }
        (["sheet", "refused", number], Err(why)) => {
            Err(failure(SHEET_REFUSED, format!("{path}: sheet refused {number}: {why}\n")))
        }
        (["stopped", _], Ok((_, map))) => Err(failure(STOPPED, stopped(path, map, seen))),
        (["refused", number, "at", "record", record, "after", _], Ok((sheet, map))) => {
            let end = (number.parse().unwrap_or(0), record.parse().unwrap_or(0));
            Err(failure(REFUSED, refused(path, sheet, map, seen.steps, end)))
        }
        _ => Err(by(RUN, NO_ENGINE, &format!("the engine ended without telling how: '{}'", seen.last))),
    }
}

/// Follows the run up to the step that was refused.
fn refused(path: &str, sheet: &Sheet, map: &Map, steps: u64, (number, record): (Refusal, u32)) -> String {
    let mut replay = Replay::new(sheet);
    let followed = (0..steps).all(|_| replay.step().is_ok());
    if followed && replay.record() == record && replay.step() == Err(number) {
        return why::refused(path, map, &replay, number);
    }
    format!("{path}: refused {number} at record {record} after {steps} steps: {}\n", differs("follows this run"))
}

/// The desk and the engine do not agree: the engine is the proved one.
fn differs(what: &str) -> String {
    format!("why cannot be told, since the desk differs from the engine in how it {what}; please report this model")
}

fn stopped(path: &str, map: &Map, seen: &Seen) -> String {
    let [time, process, record] = seen.step;
    let mut words =
        format!("{path}: stopped after {} steps at tick {time}: main has not come to its end\n", seen.steps);
    let here = seen.steps - seen.since + 1;
    if here >= LONG_AT_ONE_TICK {
        words += &format!("  the last {here} steps were all at tick {time}: perhaps a loop without a hold above 0\n");
    }
    let Some((name, statement, line)) = map.step(process, record) else { return words };
    let line = if line == 0 { String::new() } else { format!(" on line {line}") };
    words + &format!("  the last step: {name}, '{statement}'{line}\n")
}
