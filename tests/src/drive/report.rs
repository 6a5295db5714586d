//! Requests in readable form, and the first word in which two responses differ.

use crate::protocol::{Lent, Request, Response};
use crate::sim::accum::Accum;
use crate::sim::call::number;
use crate::sim::model::Counts;
use crate::sim::sheet::{self, Sheet};
use crate::sim::tables::{decode, Tables};
use std::fmt::{Debug, Write};

/// The first item in which two lists differ.
fn differing<T: PartialEq + Debug>(name: &str, wanted: &[T], got: &[T]) -> Option<String> {
    let at = wanted.iter().zip(got).position(|(w, g)| w != g);
    if at.is_none() && wanted.len() != got.len() {
        return Some(format!("{name}: wanted {} items, got {}", wanted.len(), got.len()));
    }
    at.map(|i| format!("{name}[{i}]: wanted {:?}, got {:?}", wanted[i], got[i]))
}

/// The first word in which the lent contents differ.
pub fn difference_of_lent(wanted: &Lent, got: &Lent) -> Option<String> {
    let (w, g) = (&wanted.tables, &got.tables);
    differing("links", &w.links, &g.links)
        .or_else(|| differing("axis", &w.axis, &g.axis))
        .or_else(|| differing("times", &w.times, &g.times))
        .or_else(|| differing("marks", &w.marks, &g.marks))
        .or_else(|| differing("accumulators", &wanted.accums, &got.accums))
        .or_else(|| differing("positions", &wanted.positions, &got.positions))
        .or_else(|| differing("trace", &wanted.trace, &got.trace))
}

/// Code, line count, answer, then the contents.
pub fn difference(wanted: &Response, got: &Response) -> Option<String> {
    let fields = [
        ("code", u64::from(wanted.code), u64::from(got.code)),
        ("line count", u64::from(wanted.lines), u64::from(got.lines)),
        ("answer", wanted.answer, got.answer),
    ];
    let field = fields.iter().find(|(_, wanted, got)| wanted != got);
    field
        .map(|(name, wanted, got)| format!("{name}: wanted {wanted}, got {got}"))
        .or_else(|| difference_of_lent(&wanted.lent, &got.lent))
}

/// The whole request in words and lists; long tables are cut.
pub fn describe(request: &Request, note: &str) -> String {
    let (c, n) = (request.call, request.counts);
    let mut out = String::new();
    let _ = writeln!(out, "call {} clause {} x {} y {} t {}", c.number, c.clause, c.x, c.y, c.t);
    let _ = writeln!(out, "H {} P {} L {}; lengths {:?}", n.heads, n.processes, n.plain, request.lengths());
    if !note.is_empty() {
        let _ = writeln!(out, "damage: {note}");
    }
    let counts = if matches!(c.number, number::RUN | number::FRESH | number::TURN) {
        describe_sheet(&mut out, &request.sheet)
    } else {
        n
    };
    describe_tables(&mut out, counts, &request.lent.tables);
    if !request.lent.accums.is_empty() {
        let _ = writeln!(out, "accumulators {}", accums(&request.lent.accums));
    }
    if !request.lent.positions.is_empty() {
        let _ = writeln!(out, "positions {}", short(&request.lent.positions));
    }
    out
}

/// The list up to its fortieth item.
fn short<T: Debug>(list: &[T]) -> String {
    let more = if list.len() > 40 { " and more" } else { "" };
    format!("{:?}{more}", &list[..list.len().min(40)])
}

/// The accumulators that are not all zeros, by number.
fn accums(list: &[Accum]) -> String {
    let numbered = list.iter().enumerate().filter(|(_, x)| **x != Accum::default());
    short(&numbered.map(|(i, x)| (i + 1, x.a, x.b, x.c)).collect::<Vec<_>>())
}

/// Lists where the tables are well formed, else their words.
fn describe_tables(out: &mut String, counts: Counts, t: &Tables) {
    match decode(counts, t) {
        Ok(model) => {
            let notices: Vec<(u32, u64)> = model.notices.iter().map(|n| (n.process, n.time)).collect();
            let gone: Vec<u32> = (1..=counts.processes).map(|p| counts.process(p)).collect();
            let gone: Vec<u32> = gone.into_iter().filter(|&p| model.is_terminated(p)).collect();
            for (i, set) in model.sets.iter().enumerate().filter(|(_, set)| !set.is_empty()) {
                let _ = writeln!(out, "head {}: {}", i + 1, short(set));
            }
            let _ = writeln!(out, "notices {}", short(&notices));
            let _ = writeln!(out, "terminated {}", short(&gone));
        }
        Err(refusal) => {
            let _ = writeln!(out, "tables refused with {refusal}\nlinks {}\naxis {}", short(&t.links), short(&t.axis));
            let _ = writeln!(out, "times {}\nmarks {}", short(&t.times), short(&t.marks));
        }
    }
}

fn describe_sheet(out: &mut String, bytes: &[u8]) -> Counts {
    let Ok(sheet) = sheet::decode(bytes) else {
        let _ = writeln!(out, "sheet refused with 8: bytes {}", short(bytes));
        return Counts::new(0, 0, 0);
    };
    out.push_str(&sheet_text(&sheet));
    sheet.counts
}

/// The sheet's counts, starts and records.
pub fn sheet_text(sheet: &Sheet) -> String {
    let c = sheet.counts;
    let mut out = format!("sheet H {} P {} L {} R {}\n", c.heads, c.processes, c.plain, sheet.size());
    let _ = writeln!(out, "starts {}", short(&sheet.starts));
    for (i, r) in sheet.records.iter().enumerate().take(40) {
        let fields = format!("clause {} x {} y {} t {}", r.clause, r.x, r.y, r.t);
        let _ = writeln!(out, "record {} next {} operation {} {fields}", i + 1, r.next, r.operation);
    }
    out
}
