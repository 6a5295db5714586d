//! Which fields each operation uses and what they may hold: refusal 8.

use super::accum::MOST;
use super::sheet::{Record, Sheet, CURRENT};
use crate::mutations::{on, M};

/// What a field of a record is.
#[derive(Clone, Copy, PartialEq, Eq)]
pub enum Use {
    /// Holds 0.
    Unused,
    /// A linkage, none, current or a first member or process.
    Operand,
    /// A record number or 0.
    Record,
    /// The number of an accumulator.
    Accumulator,
}

/// The uses of x and y and whether t is used.
pub struct Row {
    pub x: Use,
    pub y: Use,
    pub t: bool,
}

fn row(x: Use, y: Use, t: bool) -> Option<Row> {
    Some(Row { x, y, t })
}

/// The row of an operation under a clause; none for other operations and clauses.
pub fn uses(operation: u8, clause: u8) -> Option<Row> {
    use Use::{Accumulator, Operand, Record, Unused};
    match operation {
        1 | 5 | 9 => row(Operand, Unused, false),
        2..=4 => row(Operand, Operand, false),
        6 => row(Unused, Unused, true),
        7 => row(Unused, Unused, false),
        8 => row(Unused, Operand, false),
        10 | 11 => match clause {
            0 => row(Operand, Unused, false),
            1..=4 => row(Operand, Unused, true),
            5 | 6 => row(Operand, Operand, false),
            _ => None,
        },
        12 => row(Operand, Record, false),
        13 => row(Accumulator, Unused, true),
        _ => None,
    }
}

/// Starts, and every record whether a chain reaches it or not.
pub fn keeps_layout(sheet: &Sheet) -> bool {
    let starts = sheet.starts.iter().all(|&start| start <= sheet.size());
    let reached = if on(M::UnreachedFree) { reached(sheet) } else { vec![true; sheet.records.len()] };
    let judged = sheet.records.iter().zip(reached).filter(|(_, reached)| *reached);
    starts && judged.into_iter().all(|(record, _)| record_keeps(sheet, record))
}

fn record_keeps(sheet: &Sheet, r: &Record) -> bool {
    let Some(row) = uses(r.operation, r.clause) else { return false };
    let activation = r.operation == 10 || r.operation == 11;
    let unused = (activation || r.clause == 0) && r.zeros == [0, 0] && (row.t || r.t == 0);
    r.next <= sheet.size()
        && (unused || on(M::UnusedFieldsFree))
        && field_keeps(sheet, row.x, r.x)
        && field_keeps(sheet, row.y, r.y)
}

fn field_keeps(sheet: &Sheet, used: Use, value: u32) -> bool {
    match used {
        Use::Unused => value == 0 || on(M::UnusedFieldsFree),
        Use::Operand => in_operand_range(sheet, value) || on(M::OperandAtStep),
        Use::Record => value <= sheet.size(),
        Use::Accumulator => value >= 1 && value as usize <= MOST,
    }
}

/// 0 to N, or current, or 65,536 + h for one of head h's members, h from 1 to H.
pub fn in_operand_range(sheet: &Sheet, value: u32) -> bool {
    value <= sheet.counts.total() || (CURRENT..=CURRENT + sheet.counts.heads).contains(&value)
}

/// The records that some chain from a start comes to, for a misreading.
fn reached(sheet: &Sheet) -> Vec<bool> {
    let mut reached = vec![false; sheet.records.len()];
    let mut todo: Vec<u32> = sheet.starts.clone();
    while let Some(number) = todo.pop() {
        if number == 0 || number > sheet.size() || reached[number as usize - 1] {
            continue;
        }
        reached[number as usize - 1] = true;
        let record = sheet.record(number);
        todo.push(record.next);
        if record.operation == 12 {
            todo.push(record.y);
        }
    }
    reached
}
