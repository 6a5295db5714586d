//! A sheet as a text: one that builds the same bytes again, for every sheet that is accepted.

use crate::map::statement;
use crate::names::{listed, Names};
use crate::sheet::{Counts, Sheet};
use std::collections::{BTreeMap, BTreeSet};
use std::fmt::Write;

/// Columns that a list of names fills before it goes on with the next line.
const WIDTH: usize = 100;

/// A body: records that follow each other and go on to none outside, and the processes that begin in them.
struct Body {
    first: u32,
    last: u32,
    /// By the record where they begin; 0 is the end.
    owners: BTreeMap<u32, Vec<u32>>,
}

/// The text of a sheet, with these names.
pub fn show(sheet: &Sheet, names: &Names) -> String {
    let mut out = String::new();
    lists(&mut out, sheet.counts, names);
    let label = stem(names);
    for body in bodies(sheet) {
        out.push('\n');
        write(&mut out, sheet, names, &body, &|record| format!("{label}{record}"));
    }
    out
}

/// The lists of names, where there are any.
fn lists(out: &mut String, counts: Counts, names: &Names) {
    let processes = counts.heads + counts.processes;
    let kinds =
        [("heads", 0, counts.heads), ("processes", counts.heads, processes), ("links", processes, counts.total())];
    for (word, from, to) in kinds.into_iter().filter(|(_, from, to)| from < to) {
        let mut line = word.to_string();
        for item in listed(&names[from as usize + 1..=to as usize]) {
            if line.chars().count() + item.chars().count() >= WIDTH {
                let _ = writeln!(out, "{line}");
                line = "   ".to_string();
            }
            let _ = write!(line, " {item}");
        }
        let _ = writeln!(out, "{line}");
    }
}

/// What labels begin with: something that no name begins with.
fn stem(names: &Names) -> String {
    let mut stem = "record".to_string();
    while names.iter().any(|name| name.starts_with(&stem)) {
        stem.push('_');
    }
    stem
}

/// Cuts the records where nothing goes across, and gives each process its body. Records that no process begins in go with the body before.
fn bodies(sheet: &Sheet) -> Vec<Body> {
    let starts_in = |first: u32, last: u32| sheet.starts.iter().any(|start| (first..=last).contains(start));
    let mut bodies: Vec<Body> = Vec::new();
    let mut first = 1;
    for last in cuts(sheet) {
        match bodies.last_mut() {
            Some(before) if !starts_in(first, last) || !starts_in(before.first, before.last) => before.last = last,
            _ => bodies.push(Body { first, last, owners: BTreeMap::new() }),
        }
        first = last + 1;
    }
    own(sheet, &mut bodies);
    bodies
}

/// The records behind which the sheet can be cut: none goes from one side to the other.
fn cuts(sheet: &Sheet) -> Vec<u32> {
    let size = sheet.records.len() as u32;
    let mut across = vec![0; size as usize + 2];
    for record in 1..=size {
        for to in sheet.ways_on(record).filter(|to| *to != 0) {
            across[record.min(to) as usize] += 1;
            across[record.max(to) as usize] -= 1;
        }
    }
    let mut open = 0;
    let behind = |record: &u32| {
        open += across[*record as usize];
        open == 0
    };
    (1..=size).filter(behind).collect()
}

/// Gives each process the body that it begins in. Those that end at once have one without records, or else the only one.
fn own(sheet: &Sheet, bodies: &mut Vec<Body>) {
    let none_begins = sheet.starts.iter().all(|start| *start == 0);
    let ends_at_once = sheet.starts.contains(&0);
    if ends_at_once && (!none_begins || bodies.is_empty()) {
        bodies.push(Body { first: 1, last: 0, owners: BTreeMap::new() });
    }
    for (p, start) in sheet.starts.iter().enumerate() {
        let at = bodies.iter().position(|body| (body.first..=body.last).contains(start)).unwrap_or(bodies.len() - 1);
        bodies[at].owners.entry(*start).or_default().push(sheet.counts.main() + p as u32);
    }
}

/// One body: its processes, then a line for each record and each way that is not simply on.
fn write(out: &mut String, sheet: &Sheet, names: &Names, body: &Body, label: &dyn Fn(u32) -> String) {
    let mut header = Vec::new();
    for (start, owners) in &body.owners {
        let owners: Names = owners.iter().map(|owner| names[*owner as usize].clone()).collect();
        let at_first = *start == body.first || body.last == 0;
        let from = if at_first { String::new() } else { format!(" from {}", label(*start)) };
        header.extend(listed(&owners).iter().map(|item| format!("{item}{from}")));
    }
    let _ = writeln!(out, "{}:", header.join(", "));
    let targets = targets(sheet, body);
    for number in body.first..=body.last {
        let record = sheet.record(number);
        let own = if targets.contains(&number) { format!("{}: ", label(number)) } else { String::new() };
        let _ = writeln!(out, "    {own}{}", statement(record, names, label));
        match record.next {
            0 if number < body.last => out.push_str("    end\n"),
            next if next != 0 && next != number + 1 => {
                let _ = writeln!(out, "    goto {}", label(next));
            }
            _ => {}
        }
    }
    if body.last == 0 {
        out.push_str("    end\n");
    } else if body.owners.contains_key(&0) {
        let _ = writeln!(out, "    {}: end", label(0));
    }
}

/// The records of a body that need a label.
fn targets(sheet: &Sheet, body: &Body) -> BTreeSet<u32> {
    let mut targets: BTreeSet<u32> = body.owners.keys().filter(|start| **start != body.first).copied().collect();
    for number in body.first..=body.last {
        let record = sheet.record(number);
        targets.extend(sheet.ways_on(number).skip(1));
        if record.next != number + 1 {
            targets.insert(record.next);
        }
    }
    targets
}
