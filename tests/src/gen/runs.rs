//! Run calls: buffers of odd lengths, runs under way, damage to what a run is lent.

use super::queues::filling;
use super::{accums, damage, sheet_damage, sheets, Case};
use crate::expected::write_run;
use crate::protocol::{Lent, Request};
use crate::rng::Rng;
use crate::sim::accum::MOST;
use crate::sim::call::{number, Call};
use crate::sim::model::{Counts, Model, MAX_MEMBERS};
use crate::sim::run::{Run, LINE, MAX_TRACE};
use crate::sim::sheet::Sheet;

/// Trace lengths around a line, around several, and around the limit.
const SHORT: &[usize] = &[0, 1, 8, 15, 16, 17, 31, 32, 33, 47, 48, 49, 63, 64, 80, 95, 96, 97, 160, 161, 319, 320];
const MIDDLING: &[usize] = &[500, 1_000, 1_024, 1_599, 1_600, 4_096];
const LONG: &[usize] = &[65_520, 65_535, 65_536];
const TOO_LONG: &[usize] = &[65_537, 65_552, 66_000];

pub fn buffer(rng: &mut Rng) -> usize {
    match rng.below(100) {
        0 | 1 => rng.pick(LONG),
        2 | 3 => rng.pick(TOO_LONG),
        4..=20 => rng.pick(MIDDLING),
        _ => rng.pick(SHORT),
    }
}

/// A buffer for a fresh run; it has room for the steps that fill a queue as well.
pub fn first_buffer(rng: &mut Rng, sheet: &Sheet) -> usize {
    let length = buffer(rng);
    if length > MAX_TRACE {
        length
    } else {
        (length + LINE * filling(sheet)).min(MAX_TRACE)
    }
}

/// What is lent for this run, with no trace yet.
pub fn lent(run: &Run) -> Lent {
    let mut lent = Lent::default();
    write_run(run, &mut lent);
    lent
}

/// A run call; counts and operands of the request are not looked at, so anything may stand there.
pub fn request(rng: &mut Rng, sheet: Vec<u8>, counts: Counts, lent: Lent) -> Request {
    let mut request = Request { call: Call::new(number::RUN), counts, lent, sheet };
    if rng.chance(20) {
        request.counts = Counts::new(rng.next() as u32, rng.between(0, 9), rng.next() as u32);
        request.call.x = rng.next() as u32;
        request.call.clause = rng.between(0, 9);
    }
    request
}

/// A run of the sheet after some steps.
fn under_way(rng: &mut Rng, sheet: &Sheet) -> Run {
    let mut run = Run::fresh(sheet);
    for _ in 0..filling(sheet) + rng.index(60) {
        if run.turn(sheet, usize::MAX).is_err() {
            break;
        }
    }
    run
}

/// The same, asked for by a turn; most have room for just one line.
pub fn turn(rng: &mut Rng) -> Case {
    let mut case = case(rng);
    case.request.call.number = number::TURN;
    if rng.chance(80) {
        let length = rng.between(16, 31) as usize;
        case.request.lent.trace = rng.bytes(length);
    }
    case
}

/// One run call by itself.
pub fn case(rng: &mut Rng) -> Case {
    let sheet = sheets::any(rng);
    let mut run = under_way(rng, &sheet);
    vary(rng, &sheet, &mut run);
    let mut lent = lent(&run);
    let length = buffer(rng);
    lent.trace = rng.bytes(length);
    let counts = sheet.counts;
    let mut bytes = sheet.encode();
    let note = match rng.below(20) {
        0 | 1 => {
            let (class, damaged) = sheet_damage::any(rng, sheet);
            bytes = damaged;
            if rng.chance(30) {
                damage_tables(rng, &run, &mut lent);
            }
            class.name
        }
        2 | 3 => damage_tables(rng, &run, &mut lent),
        4 | 5 => damage_lengths(rng, &run, &mut lent),
        6 => damage_positions(rng, sheet.size(), &mut lent),
        _ => "",
    };
    Case { request: request(rng, bytes, counts, lent), note }
}

/// The tables of a run, any of these, filled for a fresh one.
pub fn fresh(rng: &mut Rng) -> Case {
    let mut case = case(rng);
    case.request.call.number = number::FRESH;
    case
}

/// The check of a sheet, good or damaged, by itself.
pub fn check(rng: &mut Rng) -> Case {
    let sheet = sheets::any(rng);
    let (note, bytes) = if rng.chance(50) {
        let (class, damaged) = sheet_damage::any(rng, sheet);
        (class.name, damaged)
    } else {
        ("", sheet.encode())
    };
    let call = Call::new(number::CHECK);
    let request = Request { call, counts: Counts::new(0, 0, 0), lent: Lent::default(), sheet: bytes };
    Case { request, note }
}

/// Good runs that no sheet leads to: any positions, accumulators of any kind, all links in as few queues as can be.
fn vary(rng: &mut Rng, sheet: &Sheet, run: &mut Run) {
    if rng.chance(5) {
        crowd(rng, &mut run.model);
    }
    if rng.chance(15) {
        run.accums = accums::list(rng, MOST, run.model.time());
    }
    if rng.chance(10) {
        run.positions.iter_mut().for_each(|p| *p = rng.between(0, sheet.size()));
    }
}

/// Every plain link goes into one queue, and some processes stand behind them. What would be too much for a queue goes into the next.
fn crowd(rng: &mut Rng, model: &mut Model) {
    let c = model.counts;
    if c.heads == 0 {
        return;
    }
    let behind = rng.between(0, c.processes.min(3));
    let most = MAX_MEMBERS - rng.pick(&[0, 0, 1, 2]);
    let mut links: Vec<u32> =
        (c.process(c.processes) + 1..=c.total()).chain((1..=behind).map(|p| c.process(p))).collect();
    let (heads, first) = (c.heads as usize, rng.index(c.heads as usize));
    for s in (0..heads).map(|s| (first + s) % heads) {
        model.sets[s] = links.split_off(links.len().saturating_sub(most));
    }
}

/// Damage to the model's tables; with it at times a trace above the limit.
fn damage_tables(rng: &mut Rng, run: &Run, lent: &mut Lent) -> &'static str {
    let (class, damaged) = loop {
        let (class, damaged) = damage::any(rng, &run.model);
        if damaged.counts == run.model.counts {
            break (class, damaged);
        }
    };
    lent.tables = damaged.tables;
    if rng.chance(10) {
        lent.trace = rng.bytes(TOO_LONG[0]);
    }
    class.name
}

/// Positions, accumulators or trace of another length; with it at times damaged positions.
fn damage_lengths(rng: &mut Rng, run: &Run, lent: &mut Lent) -> &'static str {
    let places = run.positions.len() + 1;
    if rng.chance(20) {
        lent.positions[0] = 1;
    }
    match rng.below(3) {
        0 => {
            lent.positions.resize(rng.pick(&[0, places - 1, places + 1, places + 2]), 0);
            "positions of another length"
        }
        1 => {
            let length = rng.pick(&[0, 1, MOST - 1, MOST + 1, 80]);
            lent.accums = accums::list(rng, length, run.model.time());
            "another number of accumulators"
        }
        _ => {
            let length = rng.pick(TOO_LONG);
            lent.trace = rng.bytes(length);
            "trace above the limit"
        }
    }
}

fn damage_positions(rng: &mut Rng, size: u32, lent: &mut Lent) -> &'static str {
    if rng.chance(30) {
        lent.positions[0] = rng.pick(&[1, size + 1, u32::MAX]);
        return "positions place 0";
    }
    let p = 1 + rng.index(lent.positions.len() - 1);
    lent.positions[p] = rng.pick(&[size + 1, size + 1, u32::MAX]);
    "position above R"
}
