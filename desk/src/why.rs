//! Why a run did not finish, in the planner's words.

use crate::map::Map;
use crate::operations::{row_of, Row, Wants};
use crate::replay::{Refusal, Replay};
use crate::sheet::{Kind, Record, CURRENT, LATEST, MAX_MEMBERS, MOST_RATE};

/// So many processes are named in one line.
const MOST_NAMED: usize = 8;

/// The words of a refused step: `replay` stands before it, `model` is the file that was run.
pub fn refused(model: &str, map: &Map, replay: &Replay, number: Refusal) -> String {
    let (process, record) = (map.name(replay.current()), replay.record());
    let what = match record {
        0 => "end".to_string(),
        _ => format!("do '{}'", map.records[record as usize - 1].statement),
    };
    let (reason, hints) = match number {
        3 => operand(map, replay),
        4 => nobody_left(map, replay),
        5 => (too_late(replay), vec![]),
        7 => (rate(replay), vec![]),
        10 => full(map, replay),
        _ => (format!("refusal {number}"), vec![]),
    };
    let place = place(model, map, replay);
    let first = format!("refused {number} at tick {}, record {record}: {process} could not {what}", replay.time());
    let hints: String = hints.iter().map(|hint| format!("  {hint}\n")).collect();
    format!("{place}: {first}: {reason}\n{hints}")
}

/// The file and line of the step, or the file alone.
fn place(model: &str, map: &Map, replay: &Replay) -> String {
    let line = match replay.record() {
        0 => map.bodies[(replay.current() - replay.sheet.counts.main()) as usize],
        record => map.records[record as usize - 1].line,
    };
    match &map.text {
        Some(text) if line != 0 => format!("{text}:{line}"),
        _ => model.to_string(),
    }
}

/// The record of the step, which is no end.
fn record<'a>(replay: &'a Replay) -> Option<(&'a Record, &'static Row)> {
    let record = replay.sheet.record(replay.record());
    Some((record, row_of(record.operation, record.clause, record.y == 0)?))
}

/// The first operand that will not do, and what to ask before.
fn operand(map: &Map, replay: &Replay) -> (String, Vec<String>) {
    let Some((record, row)) = record(replay) else { return (String::new(), vec![]) };
    let kind = |value: u32, wants: Wants| replay.sheet.counts.kind(replay.resolved(value, wants));
    let operands = [(record.x, row.wants_x()), (record.y, row.wants_y())];
    let wrong = operands.into_iter().find(|(value, wants)| wants.is_some_and(|w| !kind(*value, w).will_do(w)));
    let Some((value, Some(wants))) = wrong else { return ("an operand will not do".to_string(), vec![]) };
    let name = |number: u32| map.name(number).to_string();
    match (value, kind(value, wants)) {
        (0, _) => (format!("it is none, and {}", takes(row, wants)), vec![]),
        (CURRENT, _) => {
            (format!("current is {}, a process, and {}", name(replay.current()), takes(row, wants)), vec![])
        }
        (CURRENT.., Kind::None) => {
            let head = name(value - CURRENT);
            (format!("{head} was empty"), vec![format!("ask first: 'if empty {head} goto LABEL'")])
        }
        (CURRENT.., kind) => {
            let (head, first) = (name(value - CURRENT), name(replay.resolved(value, wants)));
            (format!("the first in {head} was {first}, {}, and {}", kind.words(), takes(row, wants)), vec![])
        }
        (_, kind) => (format!("{} is {}, and {}", name(value), kind.words(), takes(row, wants)), vec![]),
    }
}

fn takes(row: &Row, wants: Wants) -> String {
    format!("'{}' takes {}", row.title(), wants.words())
}

/// What the others do: none of them is scheduled.
fn nobody_left(map: &Map, replay: &Replay) -> (String, Vec<String>) {
    let counts = replay.sheet.counts;
    let others = || (counts.main()..).take(counts.processes as usize).filter(|p| *p != replay.current());
    let described = |process: u32| match replay.home(process) {
        0 => map.name(process).to_string(),
        home => format!("{} (in {})", map.name(process), map.name(home)),
    };
    let listed = |what: &str, processes: Vec<u32>| {
        let named: Vec<String> = processes.iter().take(MOST_NAMED).map(|p| described(*p)).collect();
        let more = processes.len().saturating_sub(MOST_NAMED);
        let more = if more > 0 { format!(" and {more} more") } else { String::new() };
        (!named.is_empty()).then(|| format!("{what}: {}{more}", named.join(", ")))
    };
    let (ended, idle) = others().partition(|process| replay.has_ended(*process));
    let hint = "some process has to stay scheduled as long as the run is to go on, main by a 'hold' perhaps";
    let lines = [listed("idle", idle), listed("at their end", ended), Some(hint.to_string())];
    ("nobody else is scheduled, and nobody could go on".to_string(), lines.into_iter().flatten().collect())
}

/// The queue that takes no more, by name: follow and precede need not say it.
fn full(map: &Map, replay: &Replay) -> (String, Vec<String>) {
    let Some((record, row)) = record(replay) else { return (String::new(), vec![]) };
    let meant = |value: u32, wants: Option<Wants>| wants.map_or(replay.current(), |w| replay.resolved(value, w));
    let entered = replay.entered(meant(record.x, row.wants_x()), meant(record.y, row.wants_y()));
    let head = map.name(entered);
    let hint =
        format!("some member has to leave it first, by 'out first({head})' perhaps, or the others need a second queue");
    (format!("{head} had {MAX_MEMBERS} members, and a queue takes no more"), vec![hint])
}

fn too_late(replay: &Replay) -> String {
    let sum = match record(replay) {
        Some((record, _)) if record.clause % 2 == 0 => i128::from(replay.time()) + i128::from(record.t),
        Some((record, _)) => i128::from(record.t),
        None => 0,
    };
    format!("tick {sum} is above the latest, {LATEST}")
}

fn rate(replay: &Replay) -> String {
    let Some((record, _)) = record(replay) else { return String::new() };
    let rate = i128::from(replay.rate(record.x));
    let sum = rate + i128::from(record.t);
    let limits = format!("a rate lies between -{MOST_RATE} and {MOST_RATE}");
    format!("the rate of accumulator {} was {rate} and would be {sum}: {limits}", record.x)
}
