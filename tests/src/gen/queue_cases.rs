//! Queues built by hand, each with every form of cancel, activate and reactivate that can name its members by 65,536 + h, as x and as y,
//! and after them the set operations, where the same operand means the first member.

use crate::sim::call::number as op;
use crate::sim::model::{Counts, MAX_HEADS, MAX_MEMBERS};
use crate::sim::sheet::{Record, Sheet, CURRENT};

/// Main, one that wakes main at each tick, one that has ended, and two that are woken, the highest among them.
const PROCESSES: u32 = 5;
/// With a process behind them these links make a full set.
const MOST_LINKS: u32 = MAX_MEMBERS as u32 - 1;

/// A link stands before process 3: activate wakes the process and into moves the link. Then out takes the process from the queue,
/// and main, after none, leaves the axis to it.
pub fn woken() -> Sheet {
    let main = vec![
        record(op::INTO, 5, 1, 0),
        record(op::INTO, 3, 1, 0),
        record(op::ACTIVATE, CURRENT + 1, 0, 0),
        record(op::INTO, CURRENT + 1, 1, 0),
        record(op::OUT, CURRENT + 1, 0, 0),
        Record { clause: 6, ..record(op::REACTIVATE, CURRENT, CURRENT + 1, 0) },
    ];
    let mut sheet = Sheet { counts: Counts::new(1, 3, 1), starts: Vec::new(), records: Vec::new() };
    add_body(&mut sheet, main, false);
    add_body(&mut sheet, vec![record(op::HOLD, 0, 0, 2)], false);
    sheet.starts.push(0);
    sheet
}

/// What it prints.
pub const WOKEN_TEXT: &str = "0 2 1\n0 2 2\n0 2 3\n0 3 7\n0 2 4\n0 2 5\n0 2 6\nrefused 4 at record 0 after 7\n";

/// A link is alone in the queue: nobody is cancelled, woken or scheduled, and after none main would leave no notice.
pub fn unanswered() -> Sheet {
    let main = vec![
        record(op::INTO, 5, 1, 0),
        record(op::CANCEL, CURRENT + 1, 0, 0),
        record(op::ACTIVATE, CURRENT + 1, 0, 0),
        record(op::REACTIVATE, CURRENT + 1, 0, 0),
        Record { clause: 5, ..record(op::ACTIVATE, 3, CURRENT + 1, 0) },
        Record { clause: 6, ..record(op::REACTIVATE, CURRENT, CURRENT + 1, 0) },
    ];
    let mut sheet = Sheet { counts: Counts::new(1, 3, 1), starts: Vec::new(), records: Vec::new() };
    add_body(&mut sheet, main, false);
    sheet.starts.extend([0, 0]);
    sheet
}

/// What it prints.
pub const UNANSWERED_TEXT: &str = "0 2 1\n0 2 2\n0 2 3\n0 2 4\n0 2 5\nrefused 4 at record 6 after 5\n";

/// These two, and every queue with every call.
pub fn all() -> Vec<Sheet> {
    let few = Counts::new(2, PROCESSES, 3);
    let [main, ended, a, b] = [1, 3, 4, 5].map(|p| few.process(p));
    let links: Vec<u32> = (few.process(PROCESSES) + 1..=few.total()).collect();
    let k = links[0];
    let queues = [
        vec![],
        links.clone(),
        vec![a, b],
        vec![a, k, b],
        vec![k, b, k + 1, a],
        vec![main, k, a],
        vec![k, main, a],
        vec![k, ended, a],
    ];
    let mut sheets = vec![woken(), unanswered()];
    sheets.extend(queues.iter().map(|queue| called(few, 2, queue)));
    let last = Counts::new(MAX_HEADS, PROCESSES, 2);
    sheets.push(called(last, MAX_HEADS, &[last.total(), last.total() - 1, last.process(4)]));
    let most = MOST_LINKS;
    for (plain, behind) in [(300, vec![]), (300, vec![1]), (300, vec![5, 4]), (most - 1, vec![4]), (most, vec![4])] {
        let counts = Counts::new(1, PROCESSES, plain);
        let mut queue: Vec<u32> = (counts.process(PROCESSES) + 1..=counts.total()).collect();
        queue.extend(behind.into_iter().map(|p| counts.process(p)));
        sheets.push(called(counts, 1, &queue));
    }
    sheets
}

/// Every form of cancel, activate and reactivate: its operation and clause.
pub fn forms() -> Vec<(u32, u8)> {
    let clauses = |operation: u32| (0..=6).map(move |clause| (operation, clause));
    [(op::CANCEL, 0)].into_iter().chain(clauses(op::ACTIVATE)).chain(clauses(op::REACTIVATE)).collect()
}

pub fn record(operation: u32, x: u32, y: u32, t: i64) -> Record {
    Record { operation: operation as u8, x, y, t, ..Record::default() }
}

/// Main fills the queue and makes the calls; the fourth and fifth hold a while and go to sleep, the third ends at once.
fn called(counts: Counts, head: u32, queue: &[u32]) -> Sheet {
    let [waker, third, fourth, fifth] = [2, 3, 4, 5].map(|p| counts.process(p));
    let mut main: Vec<Record> = queue.iter().map(|&member| record(op::INTO, member, head, 0)).collect();
    main.push(record(op::ACTIVATE, third, 0, 0));
    main.push(Record { clause: 2, ..record(op::ACTIVATE, waker, 0, 0) });
    for call in calls(CURRENT + head, fourth, waker) {
        main.extend([call, record(op::HOLD, 0, 0, 1)]);
    }
    main.extend(moves(CURRENT + head, head, fifth));
    let waking = vec![record(op::HOLD, 0, 0, 1), record(op::ACTIVATE, counts.main(), 0, 0)];
    let sleeper = vec![record(op::HOLD, 0, 0, 2), record(op::PASSIVATE, 0, 0, 0)];
    let mut sheet = Sheet { counts, starts: Vec::new(), records: Vec::new() };
    add_body(&mut sheet, main, false);
    add_body(&mut sheet, waking, true);
    sheet.starts.push(0);
    add_body(&mut sheet, sleeper.clone(), true);
    add_body(&mut sheet, sleeper, true);
    sheet
}

/// Each form with the member as x, and under clauses 5 and 6 as y: with others, with current and with itself.
fn calls(member: u32, other: u32, live: u32) -> Vec<Record> {
    let mut calls = Vec::new();
    for (operation, clause) in forms() {
        let t = match clause {
            1 | 3 => calls.len() as i64 + 5, // a tick to come: a hold of 1 follows each call
            2 | 4 => 1,
            _ => 0,
        };
        let call = |(x, y)| Record { clause, ..record(operation, x, y, t) };
        if clause < 5 {
            calls.push(call((member, 0)));
        } else {
            let pairs = [(member, live), (other, member), (CURRENT, member), (member, CURRENT), (member, member)];
            calls.extend(pairs.map(call));
        }
    }
    calls
}

/// The first member beside others and others beside it, at the end of its queue, in no queue; at last where a head is asked for.
fn moves(member: u32, head: u32, other: u32) -> Vec<Record> {
    vec![
        record(op::PRECEDE, other, member, 0),
        record(op::FOLLOW, other, member, 0),
        record(op::INTO, member, head, 0),
        record(op::FOLLOW, member, other, 0),
        record(op::OUT, member, 0, 0),
        record(op::FOLLOW, member, member, 0),
        record(op::INTO, other, member, 0),
    ]
}

/// Adds the body of the next process, which ends or begins again.
pub fn add_body(sheet: &mut Sheet, mut body: Vec<Record>, again: bool) {
    let first = sheet.size() + 1;
    body.iter_mut().zip(first + 1..).for_each(|(record, next)| record.next = next);
    if let Some(last) = body.last_mut() {
        last.next = if again { first } else { 0 };
    }
    sheet.starts.push(first);
    sheet.records.extend(body);
}
