//! Good sheets: a body of records for each process, chained, often looping, at times shared.

use super::records::{record, Style};
use super::{crowded, queues};
use crate::rng::Rng;
use crate::sim::call::number as op;
use crate::sim::model::{Counts, LIMIT, MAX_HEADS, MAX_PLAIN, MAX_PROCESSES};
use crate::sim::run::Run;
use crate::sim::sheet::{Record, Sheet, MAX_RECORDS};

/// So many sheets in a hundred are about a queue, and so many about one that is full, or nearly.
const QUEUES: u64 = 12;
const CROWDED: u64 = 3;

/// A good sheet, mostly one that goes on for a while and has notices that meet.
pub fn any(rng: &mut Rng) -> Sheet {
    let mut sheet = match rng.below(100) {
        share if share < QUEUES => queues::any(rng),
        share if share < QUEUES + CROWDED => crowded::any(rng),
        _ => ordinary(rng),
    };
    if rng.chance(25) {
        renumber(rng, &mut sheet);
    }
    sheet
}

fn ordinary(rng: &mut Rng) -> Sheet {
    for _ in 0..12 {
        let sheet = one(rng);
        if rng.chance(5) || lively(&sheet) {
            return sheet;
        }
    }
    one(rng)
}

/// It makes more than a few steps, and in some of them three notices stand with two at one time.
fn lively(sheet: &Sheet) -> bool {
    let mut run = Run::fresh(sheet);
    let (mut steps, mut meetings) = (0, 0);
    while steps < 50 && run.turn(sheet, usize::MAX).is_ok() {
        let notices = &run.model.notices;
        let meeting = notices.len() >= 3 && notices.windows(2).any(|w| w[0].time == w[1].time);
        meetings += u32::from(meeting);
        steps += 1;
    }
    steps >= 15 && meetings >= 5
}

fn one(rng: &mut Rng) -> Sheet {
    let counts = counts(rng);
    let late = rng.chance(12);
    let base = if late { LIMIT - rng.below(14) } else { 0 };
    let careless = if rng.chance(15) { 25 } else { 1 };
    let (starts, bodies) = plan(rng, counts);
    let size = bodies.iter().sum();
    let style = Style { counts, size, base, careless };
    let mut records = Vec::new();
    for (i, &length) in bodies.iter().enumerate() {
        body(rng, &style, length, i == 0, &mut records);
    }
    if late && starts[0] != 0 {
        let first = &mut records[starts[0] as usize - 1];
        *first = Record { next: first.next, operation: op::HOLD as u8, t: base as i64, ..Record::default() };
    }
    Sheet { counts, starts, records }
}

/// Small counts mostly; a sheet without plain links has only processes in its sets.
fn counts(rng: &mut Rng) -> Counts {
    let plain = if rng.chance(50) { 0 } else { rng.between(1, 4) };
    match rng.below(100) {
        0 => Counts::new(MAX_HEADS, MAX_PROCESSES, MAX_PLAIN),
        1 => Counts::new(rng.between(0, 3), MAX_PROCESSES, plain),
        2 => Counts::new(MAX_HEADS, rng.between(2, 30), MAX_PLAIN),
        3..=6 => Counts::new(rng.between(1, 9), rng.between(10, 40), plain),
        7..=12 => Counts::new(0, rng.between(1, 4), plain),
        _ => Counts::new(rng.between(1, 3), rng.between(1, 8), plain),
    }
}

/// Starts and the lengths of the bodies, main's first; the last body may be one that nobody starts.
fn plan(rng: &mut Rng, counts: Counts) -> (Vec<u32>, Vec<u32>) {
    let (mut starts, mut bodies, mut size) = (Vec::new(), Vec::new(), 0);
    for p in 1..=counts.processes {
        let length = if p == 1 { rng.between(2, 9) } else { rng.between(1, 6) };
        if p > 1 && (rng.chance(5) || size + length > MAX_RECORDS) {
            starts.push(0);
        } else if p > 1 && rng.chance(10) {
            starts.push(rng.between(0, size));
        } else {
            starts.push(size + 1);
            bodies.push(length);
            size += length;
        }
    }
    if rng.chance(20) && size < MAX_RECORDS {
        bodies.push(rng.between(1, (MAX_RECORDS - size).min(3)));
    }
    (starts, bodies)
}

/// The records of one body, each going on to the next, the last to 0, to the first or anywhere.
fn body(rng: &mut Rng, style: &Style, length: u32, main: bool, records: &mut Vec<Record>) {
    let first = records.len() as u32 + 1;
    for i in 0..length {
        let mut r = record(rng, style, main);
        r.next = match rng.below(100) {
            0..=5 => rng.between(0, style.size),
            _ if i + 1 < length => first + i + 1,
            6..=50 => first,
            51..=60 => rng.between(0, style.size),
            _ => 0,
        };
        records.push(r);
    }
}

/// The same sheet with its records in another order.
fn renumber(rng: &mut Rng, sheet: &mut Sheet) {
    let mut order: Vec<u32> = (1..=sheet.size()).collect();
    rng.shuffle(&mut order);
    let new = |old: u32| if old == 0 { 0 } else { order[old as usize - 1] };
    let mut records = sheet.records.clone();
    for (i, r) in sheet.records.iter().enumerate() {
        let y = if u32::from(r.operation) == op::EMPTY { new(r.y) } else { r.y };
        records[order[i] as usize - 1] = Record { next: new(r.next), y, ..*r };
    }
    sheet.starts.iter_mut().for_each(|start| *start = new(*start));
    sheet.records = records;
}
