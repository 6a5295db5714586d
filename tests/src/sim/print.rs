//! What the printing program must print for a sheet.

use super::run::{End, Run};
use super::sheet;
use crate::mutations::{on, M};
use std::fmt::Write;

/// After so many steps printing stops.
pub const MOST_STEPS: u32 = 1_000_000;

/// The whole text; every line ends in a newline, the last too.
pub fn text(bytes: &[u8]) -> String {
    text_within(bytes, MOST_STEPS).unwrap_or_default()
}

/// The whole text if the run ends within so many steps, else none.
pub fn text_within(bytes: &[u8], most: u32) -> Option<String> {
    let Ok(sheet) = sheet::decode(bytes) else {
        return Some("sheet refused 8\n".to_string());
    };
    let mut run = Run::fresh(&sheet);
    let mut out = String::new();
    let mut steps = 0;
    loop {
        let stopped = steps == MOST_STEPS;
        if stopped && (on(M::StoppedFirst) || !run.finished()) {
            return last(out, format!("stopped {steps}"));
        }
        if steps > most {
            return None;
        }
        let record = run.at();
        match run.turn(&sheet, usize::MAX) {
            Ok(line) => writeln!(out, "{} {} {}", line.time, line.process, line.record).ok()?,
            Err(End::Refused(n)) => return last(out, format!("refused {n} at record {record} after {steps}")),
            Err(_) => return last(out, format!("finished {steps}")),
        }
        steps += 1;
    }
}

fn last(mut out: String, line: String) -> Option<String> {
    out.push_str(&line);
    out.push('\n');
    Some(out)
}
