//! Damaged sheets: one class for each field and limit of the layout. All are refused with 8.

use crate::rng::Rng;
use crate::sim::model::{Counts, MAX_HEADS, MAX_PLAIN, MAX_PROCESSES};
use crate::sim::sheet::{Record, Sheet, CURRENT, MAX_RECORDS};

pub struct Class {
    pub name: &'static str,
    make: fn(&mut Rng, Sheet) -> Vec<u8>,
}

const fn class(name: &'static str, make: fn(&mut Rng, Sheet) -> Vec<u8>) -> Class {
    Class { name, make }
}

pub const CLASSES: &[Class] = &[
    class("no bytes", |_, _| Vec::new()),
    class("header cut short", |rng, s| cut(&s, 1 + rng.index(15))),
    class("one byte short", |_, s| cut(&s, s.encode().len() - 1)),
    class("one byte long", |_, s| padded(&s, 1)),
    class("a record short", |_, s| cut(&s, s.encode().len() - 24)),
    class("a record long", |_, s| padded(&s, 24)),
    class("heads outside the limit", |rng, s| header(&s, 0, above(rng, MAX_HEADS))),
    class("plain links outside the limit", |rng, s| header(&s, 2, above(rng, MAX_PLAIN))),
    class("no process", |_, mut s| {
        s.starts.clear();
        s.counts.processes = 0;
        s.encode()
    }),
    class("processes outside the limit", |rng, mut s| {
        s.counts.processes = MAX_PROCESSES + 1;
        s.starts.resize(MAX_PROCESSES as usize + 1, 0);
        if rng.chance(50) {
            s.encode()
        } else {
            header(&s, 1, above(rng, MAX_PROCESSES))
        }
    }),
    class("records outside the limit", |_, mut s| {
        s.records.resize(MAX_RECORDS as usize + 1, Record { operation: 7, ..Record::default() });
        s.encode()
    }),
    class("processes that wrap the length", |_, s| header(&s, 1, s.counts.processes + (1 << 30))),
    class("records that wrap the length", |_, s| header(&s, 3, s.size() + (1 << 29))),
    class("start outside", |rng, mut s| {
        let p = rng.index(s.starts.len());
        s.starts[p] = above(rng, s.size());
        s.encode()
    }),
    class("next outside", |rng, s| record(rng, s, |rng, r, size, _| r.next = above(rng, size))),
    class("operation 0, 14 and up", |rng, s| record(rng, s, |rng, r, _, _| r.operation = rng.pick(&[0, 14, 15, 255]))),
    class("clause above 6", |rng, s| {
        replaced(rng, s, &[10, 11], |rng, r, _, _| r.clause = rng.pick(&[7, 8, 128, 255]))
    }),
    class("clause where it is unused", |rng, s| {
        replaced(rng, s, &[1, 2, 3, 4, 5, 6, 7, 8, 9, 12, 13], |rng, r, _, _| r.clause = rng.pick(&[1, 5, 6, 255]))
    }),
    class("the two zero bytes", |rng, s| record(rng, s, |rng, r, _, _| r.zeros[rng.index(2)] = rng.pick(&[1, 255]))),
    class("x where it is unused", |rng, s| replaced(rng, s, &[6, 7, 8], |rng, r, _, _| r.x = rng.pick(&[1, CURRENT]))),
    class("y where it is unused", |rng, s| {
        replaced(rng, s, &[1, 5, 6, 7, 9, 13, 10, 11], |rng, r, _, _| r.y = rng.pick(&[1, CURRENT]))
    }),
    class("y under clauses 0 to 4", |rng, s| {
        replaced(rng, s, &[10, 11], |rng, r, _, _| (r.clause, r.y) = (rng.between(0, 4) as u8, 1))
    }),
    class("t where it is unused", |rng, s| {
        replaced(rng, s, &[1, 2, 3, 4, 5, 7, 8, 9, 12], |rng, r, _, _| r.t = rng.pick(&[1, -1, 1 << 32]))
    }),
    class("t under clauses 0, 5 and 6", |rng, s| {
        replaced(rng, s, &[10, 11], |rng, r, _, _| (r.clause, r.t) = (rng.pick(&[0, 5, 6]), rng.pick(&[1, i64::MIN])))
    }),
    class("operand x outside", |rng, s| {
        replaced(rng, s, &[1, 2, 3, 4, 5, 9, 10, 11, 12], |rng, r, _, c| r.x = no_operand(rng, c))
    }),
    class("operand y outside", |rng, s| replaced(rng, s, &[2, 3, 4, 8], |rng, r, _, c| r.y = no_operand(rng, c))),
    class("operand y outside, clauses 5 and 6", |rng, s| {
        replaced(rng, s, &[10, 11], |rng, r, _, c| (r.clause, r.y) = (rng.pick(&[5, 6]), no_operand(rng, c)))
    }),
    class("branch outside", |rng, s| replaced(rng, s, &[12], |rng, r, size, _| r.y = above(rng, size))),
    class("accumulator number outside", |rng, s| {
        replaced(rng, s, &[13], |rng, r, _, _| r.x = rng.pick(&[0, 65, CURRENT, u32::MAX]))
    }),
];

/// The bytes of a sheet damaged in this way; it has a record at least.
pub fn damage(rng: &mut Rng, class: &Class, mut sheet: Sheet) -> Vec<u8> {
    if sheet.records.is_empty() {
        sheet.records.push(Record { operation: 6, t: 1, ..Record::default() });
    }
    (class.make)(rng, sheet)
}

pub fn any(rng: &mut Rng, sheet: Sheet) -> (&'static Class, Vec<u8>) {
    let class = &CLASSES[rng.index(CLASSES.len())];
    (class, damage(rng, class, sheet))
}

fn cut(sheet: &Sheet, length: usize) -> Vec<u8> {
    let mut bytes = sheet.encode();
    bytes.truncate(length);
    bytes
}

fn padded(sheet: &Sheet, by: usize) -> Vec<u8> {
    let mut bytes = sheet.encode();
    bytes.resize(bytes.len() + by, 0);
    bytes
}

/// Another value in a header field, the rest as it was.
fn header(sheet: &Sheet, field: usize, value: u32) -> Vec<u8> {
    let mut bytes = sheet.encode();
    bytes[4 * field..4 * field + 4].copy_from_slice(&value.to_le_bytes());
    bytes
}

fn above(rng: &mut Rng, limit: u32) -> u32 {
    rng.pick(&[limit + 1, limit + 1, limit + 2, 65_536, u32::MAX])
}

/// A number that is no operand under these counts.
fn no_operand(rng: &mut Rng, c: Counts) -> u32 {
    let (n, top) = (c.total(), CURRENT + c.heads);
    rng.pick(&[n + 1, n + 1, CURRENT - 1, top + 1, top + 1, u32::MAX])
}

type Change = fn(&mut Rng, &mut Record, u32, Counts);

/// One record changed.
fn record(rng: &mut Rng, mut sheet: Sheet, change: Change) -> Vec<u8> {
    let (at, size) = (rng.index(sheet.records.len()), sheet.size());
    let counts = sheet.counts;
    change(rng, &mut sheet.records[at], size, counts);
    sheet.encode()
}

/// One record made a good one of one of these operations, then changed.
fn replaced(rng: &mut Rng, mut sheet: Sheet, operations: &[u8], change: Change) -> Vec<u8> {
    let at = rng.index(sheet.records.len());
    let operation = rng.pick(operations);
    let x = if matches!(operation, 6..=8) { 0 } else { 1 };
    let next = sheet.records[at].next;
    sheet.records[at] = Record { next, operation, x, ..Record::default() };
    let (size, counts) = (sheet.size(), sheet.counts);
    change(rng, &mut sheet.records[at], size, counts);
    sheet.encode()
}
