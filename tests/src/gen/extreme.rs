//! Accepted sheets that no planner would write: everything goes anywhere, all counts at their ends.

use crate::rng::Rng;
use crate::sim::accum::MOST;
use crate::sim::call::number as op;
use crate::sim::model::{Counts, MAX_HEADS, MAX_PLAIN, MAX_PROCESSES};
use crate::sim::sheet::{Record, Sheet, CURRENT, MAX_RECORDS};
use crate::sim::sheet_rules::{uses, Use};

/// All of them.
pub fn all(rng: &mut Rng) -> Vec<Sheet> {
    let most = Counts::new(MAX_HEADS, MAX_PROCESSES, MAX_PLAIN);
    let small = Counts::new(2, 3, 4);
    let mut sheets = vec![
        every_operand(),
        every_time(),
        without_records(Counts::new(0, 1, 0)),
        without_records(small),
        without_records(most),
        idle(wild(rng, small, 40)),
        idle(wild(rng, most, MAX_RECORDS)),
        idle(ring(small, 1)),
        wild(rng, most, MAX_RECORDS),
        wild(rng, Counts::new(0, MAX_PROCESSES, MAX_PLAIN), MAX_RECORDS),
        wild(rng, Counts::new(0, 1, 0), MAX_RECORDS),
        wild(rng, most, 1),
    ];
    for size in [1, 2, 3, 5, 1_000, MAX_RECORDS] {
        sheets.push(inside(ring(Counts::new(1, 12, 0), size)));
        sheets.push(inside(turned(ring(Counts::new(0, 3, 1), size))));
        sheets.push(inside(ring(most, size)));
    }
    sheets
}

/// A sheet of any size whose records and processes go anywhere.
pub fn any(rng: &mut Rng) -> Sheet {
    let counts = Counts::new(rng.between(0, 4), rng.between(1, 12), rng.between(0, 5));
    let size = rng.pick(&[0, 1, 2, 3, 4, 6, 10, 25, 60]);
    let sheet = wild(rng, counts, size);
    match rng.below(8) {
        0 => idle(sheet),
        1 if size > 0 => inside(sheet),
        _ => sheet,
    }
}

/// Every process starts anywhere, every record goes on anywhere, with any fields.
fn wild(rng: &mut Rng, counts: Counts, size: u32) -> Sheet {
    let straight = rng.pick(&[0, 50, 90]); // so many in a hundred go on to the next
    let record = |rng: &mut Rng, number: u32| {
        let next = if number < size && rng.chance(straight) { number + 1 } else { rng.between(0, size) };
        Record { next, ..fields(rng, counts, size) }
    };
    let starts = (0..counts.processes).map(|_| rng.between(0, size)).collect();
    Sheet { counts, starts, records: (1..=size).map(|number| record(rng, number)).collect() }
}

/// Any operation with anything that its fields may hold.
fn fields(rng: &mut Rng, counts: Counts, size: u32) -> Record {
    let operation = rng.between(1, 13) as u8;
    let clause = if matches!(operation, 10 | 11) { rng.between(0, 6) as u8 } else { 0 };
    let mut r = Record { operation, clause, ..Record::default() };
    let Some(row) = uses(operation, clause) else { return r };
    let mut field = |used: Use| match used {
        Use::Unused => 0,
        Use::Operand if rng.chance(70) => rng.between(0, counts.total()),
        Use::Operand => CURRENT + rng.between(0, counts.heads),
        Use::Record => rng.between(0, size),
        Use::Accumulator => rng.between(1, MOST as u32),
    };
    (r.x, r.y) = (field(row.x), field(row.y));
    r.t = if row.t { rng.pick(&TIMES) } else { 0 };
    r
}

const TIMES: [i64; 10] = [0, 1, -1, 5, 1_000_001, -2_000_001, (1 << 40) - 1, 1 << 40, i64::MIN, i64::MAX];

/// One loop of holds.
fn ring(counts: Counts, size: u32) -> Sheet {
    let hold = |next: u32| Record { next, operation: op::HOLD as u8, t: i64::from(next), ..Record::default() };
    let records = (1..=size).map(|number| hold(number % size + 1)).collect();
    Sheet { counts, starts: vec![1; counts.processes as usize], records }
}

/// The same loop from its end to its beginning.
fn turned(mut sheet: Sheet) -> Sheet {
    let size = sheet.size();
    for (i, record) in sheet.records.iter_mut().enumerate() {
        record.next = if i == 0 { size } else { i as u32 };
    }
    sheet
}

/// No process makes a step.
fn idle(mut sheet: Sheet) -> Sheet {
    sheet.starts.fill(0);
    sheet
}

/// The processes start one record further each, from the middle on.
fn inside(mut sheet: Sheet) -> Sheet {
    let size = sheet.size();
    for (p, start) in sheet.starts.iter_mut().enumerate() {
        *start = (size / 2 + p as u32) % size + 1;
    }
    sheet
}

fn without_records(counts: Counts) -> Sheet {
    Sheet { counts, starts: vec![0; counts.processes as usize], records: Vec::new() }
}

/// Operands of every kind in every operation under every clause.
fn every_operand() -> Sheet {
    let counts = Counts::new(2, 2, 2);
    let kinds = [0, 1, 2, 3, 4, 5, 6, CURRENT, CURRENT + 1, CURRENT + 2];
    let mut records = Vec::new();
    for (operation, clause) in forms() {
        let Some(row) = uses(operation, clause) else { continue };
        let range = |used: Use| match used {
            Use::Operand => &kinds[..],
            Use::Record => &[0, 1, 3][..],
            Use::Accumulator => &[1, 64][..],
            Use::Unused => &[0][..],
        };
        for &x in range(row.x) {
            let other = |y: &u32| Record { operation, clause, x, y: *y, ..Record::default() };
            records.extend(range(row.y).iter().map(other));
        }
    }
    in_a_row(counts, records)
}

/// Times at both ends wherever a time stands.
fn every_time() -> Sheet {
    let mut records = Vec::new();
    for (operation, clause) in forms() {
        let Some(row) = uses(operation, clause).filter(|row| row.t) else { continue };
        let x = u32::from(row.x != Use::Unused);
        records.extend(TIMES.iter().map(|&t| Record { operation, clause, x, t, ..Record::default() }));
    }
    in_a_row(Counts::new(0, 1, 0), records)
}

/// Each operation with each of its clauses.
fn forms() -> impl Iterator<Item = (u8, u8)> {
    let clauses = |operation: u8| if matches!(operation, 10 | 11) { 0..=6 } else { 0..=0 };
    (1..=13).flat_map(move |operation| clauses(operation).map(move |clause| (operation, clause)))
}

/// The records as one body, which main begins.
fn in_a_row(counts: Counts, mut records: Vec<Record>) -> Sheet {
    let size = records.len() as u32;
    records.iter_mut().zip(1..).for_each(|(record, number)| record.next = if number < size { number + 1 } else { 0 });
    let mut starts = vec![0; counts.processes as usize];
    starts[0] = 1;
    Sheet { counts, starts, records }
}
