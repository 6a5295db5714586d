//! Warnings on what a model has and never uses: statements that no process comes to, processes that never run, names left out.

use super::declare::Declared;
use super::flow::{Flow, Step};
use crate::names::{cut, quoted};
use crate::operations::row_of;
use crate::report::Report;
use crate::sheet::{Kind, Sheet, CURRENT};
use std::collections::HashSet;

/// Warns of statements that no process comes to, once for each row of them.
pub fn statements(sheet: &Sheet, steps: &[Step], flows: &[Flow], report: &mut Report) {
    let mut reached = vec![false; steps.len() + 1];
    let mut open = sheet.starts.clone();
    while let Some(record) = open.pop() {
        if record != 0 && !reached[record as usize] {
            reached[record as usize] = true;
            open.extend(sheet.ways_on(record));
        }
    }
    for flow in flows {
        let begins = |at: &usize| !reached[at + 1] && (*at == flow.steps.start || reached[*at]);
        for at in flow.steps.clone().filter(begins) {
            report.warning(steps[at].place, "nothing leads to this statement: it is never reached");
        }
    }
}

/// Which numbers the statements name.
fn named(sheet: &Sheet) -> Vec<bool> {
    let mut named = vec![false; sheet.counts.total() as usize + 1];
    for record in &sheet.records {
        let row = row_of(record.operation, record.clause, false);
        let x = row.and_then(|row| row.wants_x()).map(|_| record.x);
        let y = row.and_then(|row| row.wants_y()).map(|_| record.y);
        for operand in [x, y].into_iter().flatten() {
            let number = operand.checked_sub(CURRENT).unwrap_or(operand);
            named[number as usize] = true;
        }
    }
    named
}

/// Warns of processes that no statement names, which never run, and of heads and links left out of a row: crate5 to crate40 where crate1 to
/// crate4 are named.
pub fn names(sheet: &Sheet, declared: &Declared, report: &mut Report) {
    let named = named(sheet);
    let is_named = |name: &str| declared.find(name).is_some_and(|own| named[declared.number(own) as usize]);
    let runs = |(at, name): &(usize, &String)| *at == 0 || sheet.starts[*at] == 0 || is_named(name);
    let idle = declared.of_kind(Kind::Process).iter().enumerate().filter(|process| !runs(process));
    for (place, names) in declared.by_place(idle.map(|(_, name)| name)) {
        let it = if names.len() == 1 { "it never runs" } else { "they never run" };
        report.warning(place, format!("no statement names {}: {it}", quoted(&names)));
    }
    for kind in [Kind::Head, Kind::Link] {
        let stems = declared.of_kind(kind).iter().filter(|name| is_named(name)).filter_map(|name| Some(cut(name)?.0));
        let stems: HashSet<&str> = stems.collect();
        let left_out = |name: &&String| !is_named(name) && cut(name).is_some_and(|(stem, _)| stems.contains(stem));
        for (place, names) in declared.by_place(declared.of_kind(kind).iter().filter(left_out)) {
            let they = match (kind, names.len()) {
                (Kind::Head, 1) => "it stays empty",
                (Kind::Head, _) => "they stay empty",
                (_, 1) => "it stands in no queue",
                _ => "they stand in no queue",
            };
            report.warning(place, format!("no statement names {}: {they}", quoted(&names)));
        }
    }
}
