//! Sheets written as texts from docs/SHEETS.md, not by the desk's table: its words have to mean these operations.

use crate::sim::call::number as op;
use crate::sim::model::Counts;
use crate::sim::sheet::{Record, Sheet, CURRENT};
use std::fmt::Write;

/// A text with one body for all processes, a label before each record, and a goto or an end behind each. An old one has 'first' for the
/// first process of a queue too.
pub fn text(sheet: &Sheet, old: bool) -> String {
    let counts = sheet.counts;
    let mut out = String::new();
    for (word, first, size) in kinds(counts).into_iter().filter(|kind| kind.2 > 0) {
        let names: Vec<String> = (first..first + size).map(|number| name(counts, number)).collect();
        let _ = writeln!(out, "{word} {}", names.join(" "));
    }
    let begins =
        |(p, start): (usize, &u32)| format!("{} from {}", name(counts, counts.heads + 1 + p as u32), label(*start));
    let owners: Vec<String> = sheet.starts.iter().enumerate().map(begins).collect();
    let _ = writeln!(out, "{}:", owners.join(", "));
    for (record, number) in sheet.records.iter().zip(1..) {
        let _ = writeln!(out, "  {}: {}", label(number), statement(counts, record, old));
        match record.next {
            0 => out.push_str("  end\n"),
            next => {
                let _ = writeln!(out, "  goto {}", label(next));
            }
        }
    }
    let _ = writeln!(out, "  {}: end", label(0));
    out
}

/// The word of each list, its first number and its size: heads first, then processes, then plain links.
fn kinds(counts: Counts) -> [(&'static str, u32, u32); 3] {
    let links = counts.heads + counts.processes;
    [
        ("heads", 1, counts.heads),
        ("processes", counts.heads + 1, counts.processes),
        ("links", links + 1, counts.total() - links),
    ]
}

fn label(record: u32) -> String {
    format!("at_{record}")
}

/// The name that the text declares for a number; 0 is none.
fn name(counts: Counts, number: u32) -> String {
    match number {
        0 => "none".to_string(),
        n if n <= counts.heads => format!("queue_{n}"),
        n if n == counts.main() => "main".to_string(),
        n if n <= counts.heads + counts.processes => format!("bench_{n}"),
        n => format!("crate_{n}"),
    }
}

fn operand(counts: Counts, value: u32, first: &str) -> String {
    match value.checked_sub(CURRENT) {
        None => name(counts, value),
        Some(0) => "current".to_string(),
        Some(head) => format!("{first}({})", name(counts, head)),
    }
}

/// The record in the words of the page.
fn statement(counts: Counts, r: &Record, old: bool) -> String {
    let operation = u32::from(r.operation);
    let process = matches!(operation, op::CANCEL | op::ACTIVATE | op::REACTIVATE);
    let first = if process && !old { "first_process" } else { "first" };
    let (x, y, t) = (|| operand(counts, r.x, first), || operand(counts, r.y, first), r.t);
    match operation {
        op::OUT => format!("out {}", x()),
        op::FOLLOW => format!("follow {} {}", x(), y()),
        op::PRECEDE => format!("precede {} {}", x(), y()),
        op::INTO => format!("into {} {}", x(), y()),
        op::CLEAR => format!("clear {}", x()),
        op::HOLD => format!("hold {t}"),
        op::PASSIVATE => "passivate".to_string(),
        op::WAIT => format!("wait {}", y()),
        op::CANCEL => format!("cancel {}", x()),
        op::ACTIVATE => format!("activate {}{}", x(), clause(r.clause, t, &y())),
        op::REACTIVATE => format!("reactivate {}{}", x(), clause(r.clause, t, &y())),
        op::EMPTY => format!("if empty {} goto {}", x(), label(r.y)),
        op::ACCUM => format!("accum {} by {t}", r.x),
        other => format!("operation {other}"),
    }
}

/// "0 direct, 1 at T, 2 delay T, 3 at T prior, 4 delay T prior, 5 before Y, 6 after Y".
fn clause(clause: u8, t: i64, y: &str) -> String {
    match clause {
        0 => String::new(),
        1 => format!(" at {t}"),
        2 => format!(" delay {t}"),
        3 => format!(" at {t} prior"),
        4 => format!(" delay {t} prior"),
        5 => format!(" before {y}"),
        6 => format!(" after {y}"),
        other => format!(" clause {other}"),
    }
}
