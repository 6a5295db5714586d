//! Sheets built by hand: the worked one, the smallest, queues, some of them full, and runs of about 1,000,000 steps.

use super::{limit_sheets, queue_cases};
use crate::sim::call::number as op;
use crate::sim::model::Counts;
use crate::sim::print::MOST_STEPS;
use crate::sim::sheet::{Record, Sheet, CURRENT};

fn record(next: u32, operation: u32, x: u32, y: u32) -> Record {
    Record { next, operation: operation as u8, x, y, ..Record::default() }
}

fn timed(next: u32, operation: u32, clause: u8, x: u32, t: i64) -> Record {
    Record { clause, t, ..record(next, operation, x, 0) }
}

/// The sheet that document 01 works out.
pub fn worked() -> Sheet {
    Sheet {
        counts: Counts::new(1, 2, 0),
        starts: vec![1, 3],
        records: vec![timed(2, op::ACTIVATE, 2, 3, 5), timed(0, op::HOLD, 0, 0, 10), record(0, op::INTO, CURRENT, 1)],
    }
}

/// What it prints.
pub const WORKED_TEXT: &str = "0 2 1\n0 2 2\n5 3 3\n5 3 0\nfinished 4\n";

/// No record at all: main is at its end at once.
pub fn without_records() -> Sheet {
    Sheet { counts: Counts::new(0, 1, 0), starts: vec![0], records: Vec::new() }
}

/// The last live process, main idle, comes to its end: its finish is refused.
pub fn lonely_finish() -> Sheet {
    let records = vec![timed(2, op::ACTIVATE, 2, 2, 3), record(0, op::PASSIVATE, 0, 0), timed(0, op::HOLD, 0, 0, 4)];
    Sheet { counts: Counts::new(0, 2, 0), starts: vec![1, 3], records }
}

/// Main is at its end but never current again; the other goes on and on.
pub fn never_back() -> Sheet {
    let records = vec![timed(0, op::ACTIVATE, 0, 2, 0), record(3, op::CANCEL, 1, 0), record(3, op::HOLD, 0, 0)];
    Sheet { counts: Counts::new(0, 2, 0), starts: vec![1, 2], records }
}

/// One hold for ever.
pub fn endless() -> Sheet {
    Sheet { counts: Counts::new(0, 1, 0), starts: vec![1], records: vec![timed(1, op::HOLD, 0, 0, 1)] }
}

/// How a counted sheet goes on after its steps.
#[derive(Clone, Copy)]
pub enum After {
    /// Main is at position 0.
    Ends,
    /// The next step is refused with 3.
    Refused,
    /// Main is at position 0, but the last counted step made another process current.
    Elsewhere,
}

/// Main alone holds 1 tick so many times; then it is at its end, or its next step is refused with 3.
pub fn straight(steps: u32, refused: bool) -> Sheet {
    let next = |step| if step == steps && !refused { 0 } else { step + 1 };
    let mut records: Vec<Record> = (1..=steps).map(|step| timed(next(step), op::HOLD, 0, 0, 1)).collect();
    records.push(record(0, op::OUT, 0, 0));
    Sheet { counts: Counts::new(0, 1, 0), starts: vec![next(0)], records }
}

/// A sheet that makes exactly so many steps, from 10 on, and then goes on as told. Main holds 1 tick
/// after another until the second process has cleared the set.
pub fn counted(steps: u32, after: After) -> Sheet {
    let elsewhere = matches!(after, After::Elsewhere);
    let extra = if elsewhere { 5 } else { 4 }; // steps outside main's rounds of two
    let filler = (steps - extra) % 2;
    let rounds = i64::from((steps - extra - filler) / 2);
    let start = if filler == 1 { 7 } else { 1 };
    let ending = match after {
        After::Ends => 0,
        After::Refused => 8,
        After::Elsewhere => 9,
    };
    let records = vec![
        record(2, op::INTO, 5, 1),
        timed(3, op::ACTIVATE, 2, 3, rounds),
        timed(4, op::HOLD, 0, 0, 1),
        record(3, op::EMPTY, 1, ending),
        record(0, op::CLEAR, 1, 0),
        record(6, op::HOLD, 0, 0),
        record(1, op::OUT, 5, 0),
        record(0, op::OUT, 0, 0),
        timed(0, op::ACTIVATE, 0, 4, 0),
    ];
    Sheet { counts: Counts::new(1, 3, 1), starts: vec![start, 5, 6], records }
}

/// Runs that end next to the step where printing stops.
fn long() -> Vec<Sheet> {
    vec![
        endless(),
        never_back(),
        counted(MOST_STEPS - 1, After::Ends),
        counted(MOST_STEPS, After::Ends),
        counted(MOST_STEPS + 1, After::Ends),
        counted(MOST_STEPS - 1, After::Refused),
        counted(MOST_STEPS, After::Refused),
        counted(MOST_STEPS, After::Elsewhere),
    ]
}

/// All of them, the short ones first.
pub fn all() -> Vec<Sheet> {
    let mut sheets =
        vec![worked(), without_records(), lonely_finish(), counted(40, After::Ends), counted(41, After::Refused)];
    sheets.extend(queue_cases::all());
    sheets.extend(limit_sheets::some());
    sheets.extend(long());
    sheets
}
