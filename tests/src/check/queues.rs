//! Operands 65,536 + h worked out by hand: the first process of a queue in 9, 10 and 11, its first member elsewhere.
//! In these scenes F is 65,536 + 1 and * is current; H holds K and Q, which are links, and processes.

use super::scene::{record, step};
use crate::drive::tally::Tally;
use crate::gen::queue_cases::{unanswered, woken, UNANSWERED_TEXT, WOKEN_TEXT};
use crate::sim::call::number as op;
use crate::sim::print;
use crate::sim::sheet::Record;

pub fn check(tally: &mut Tally) {
    cancels(tally);
    activates(tally);
    reactivates(tally);
    beside(tally);
    without_process(tally);
    elsewhere(tally);
    tally.check(print::text(&woken().encode()) == WOKEN_TEXT, "a link before the process that is woken");
    tally.check(print::text(&unanswered().encode()) == UNANSWERED_TEXT, "a link alone in the queue");
}

fn cancels(tally: &mut Tally) {
    let mut cancel = |from: &str, to: &str| step(tally, "cancel F", from, record(op::CANCEL, "F", "-", 0, 0), to);
    cancel("M0 A5 | A K", "M0 | A K");
    cancel("M0 A5 | K A", "M0 | K A");
    cancel("M0 A5 B5 | K Q A B", "M0 B5 | K Q A B");
    cancel("M0 A5 | K B A", "M0 A5 | K B A");
    cancel("M0 A5 | K M A", "A5 | K M A");
    cancel("M0 A5 | M K", "A5 | M K");
    cancel("M0 | K M", "refused 4");
    cancel("A3 M7 | K M", "A3 | K M");
}

fn activates(tally: &mut Tally) {
    let mut act = |clause, t, from: &str, to: &str| {
        step(tally, "activate F", from, record(op::ACTIVATE, "F", "-", clause, t), to);
    };
    act(0, 0, "M0 | K A", "A0 M0 | K A");
    act(0, 0, "M0 | Q K C A", "C0 M0 | Q K C A");
    act(1, 7, "M2 B7 | K A", "M2 B7 A7 | K A");
    act(2, 5, "M2 B7 | K A", "M2 B7 A7 | K A");
    act(3, 7, "M2 B7 | K A", "M2 A7 B7 | K A");
    act(4, 5, "M2 B7 | K A", "M2 A7 B7 | K A");
    act(1, i64::MAX, "M2 | K A", "refused 5");
    act(0, 0, "M0 A5 | K A B", "M0 A5 | K A B");
    act(0, 0, "M0 | K A B | A", "M0 | K A B | A");
    act(0, 0, "M0 A5 | K M B", "M0 A5 | K M B");
    act(0, 0, "A3 | K M", "M3 A3 | K M");
}

fn reactivates(tally: &mut Tally) {
    let mut act = |clause, t, from: &str, to: &str| {
        step(tally, "reactivate F", from, record(op::REACTIVATE, "F", "-", clause, t), to);
    };
    act(0, 0, "M2 B7 A9 | K A", "A2 M2 B7 | K A");
    act(1, 7, "M2 B7 A9 | K A", "M2 B7 A7 | K A");
    act(2, 5, "M2 B7 A9 | K A", "M2 B7 A7 | K A");
    act(3, 7, "M2 B7 A9 | K A", "M2 A7 B7 | K A");
    act(4, 5, "M2 B7 A9 | K A", "M2 A7 B7 | K A");
    act(2, 6, "M2 B7 | K M B", "B7 M8 | K M B");
    act(2, 6, "M2 B7 | M K B", "B7 M8 | M K B");
    act(0, 0, "M2 B7 | K A B | A", "M2 B7 | K A B | A");
    act(1, i64::MAX, "M2 A9 | Q A", "refused 5");
}

fn beside(tally: &mut Tally) {
    let mut act = |number, x: &str, clause, y: &str, from: &str, to: &str| {
        step(tally, "beside", from, record(number, x, y, clause, 0), to);
    };
    act(op::ACTIVATE, "F", 5, "B", "M2 B7 | K A", "M2 A7 B7 | K A");
    act(op::ACTIVATE, "F", 6, "B", "M2 B7 | K A", "M2 B7 A7 | K A");
    act(op::ACTIVATE, "C", 5, "F", "M2 A7 | K A", "M2 C7 A7 | K A");
    act(op::ACTIVATE, "C", 6, "F", "M2 A7 B7 | K A B", "M2 A7 C7 B7 | K A B");
    act(op::ACTIVATE, "C", 5, "F", "M2 A7 | K M", "C2 M2 A7 | K M");
    act(op::ACTIVATE, "C", 6, "F", "M2 A7 | M K", "M2 C2 A7 | M K");
    act(op::ACTIVATE, "C", 6, "F", "M2 B7 | K A B", "M2 B7 | K A B");
    act(op::ACTIVATE, "F", 5, "F", "M2 | K A", "M2 | K A");
    act(op::REACTIVATE, "F", 5, "B", "M2 B7 A9 | K A", "M2 A7 B7 | K A");
    act(op::REACTIVATE, "F", 6, "*", "M2 B7 A9 | K A", "M2 A2 B7 | K A");
    act(op::REACTIVATE, "B", 5, "F", "M2 A7 B9 | K A", "M2 B7 A7 | K A");
    act(op::REACTIVATE, "*", 6, "F", "M2 A7 B9 | K A", "A7 M7 B9 | K A");
    act(op::REACTIVATE, "B", 6, "F", "M2 A7 B9 | Q K M", "M2 B2 A7 | Q K M");
    act(op::REACTIVATE, "F", 6, "F", "M2 A7 | K A", "M2 A7 | K A");
    act(op::REACTIVATE, "*", 5, "F", "M2 A7 | K M", "M2 A7 | K M");
    act(op::REACTIVATE, "*", 6, "F", "M2 B7 | K A", "B7 | K A");
}

/// Nobody or links only: as x without effect, as y nothing is scheduled.
fn without_process(tally: &mut Tally) {
    for queue in ["", " | K", " | K Q"] {
        let mut act = |axis: &str, record: Record, to: &str| {
            let to = if to.starts_with("refused") { to.to_string() } else { format!("{to}{queue}") };
            step(tally, "without a process", &format!("{axis}{queue}"), record, &to);
        };
        act("M2", record(op::CANCEL, "F", "-", 0, 0), "M2");
        for number in [op::ACTIVATE, op::REACTIVATE] {
            for (clause, t) in [(0, 0), (1, i64::MAX), (2, i64::MAX), (3, 9), (4, 9)] {
                act("M2 A7", record(number, "F", "-", clause, t), "M2 A7");
            }
            let pairs = [("F", 5, "A"), ("F", 6, "*"), ("F", 5, "F"), ("F", 6, "-"), ("B", 5, "F"), ("B", 6, "F")];
            for (x, clause, y) in pairs {
                act("M2 A7", record(number, x, y, clause, 0), "M2 A7");
            }
            act("M2 A7", record(number, "F", "K", 5, 0), "refused 3");
            act("M2 A7", record(number, "K", "F", 6, 0), "refused 3");
        }
        act("M2 A7", record(op::ACTIVATE, "A", "F", 5, 0), "M2 A7");
        act("M2 A7", record(op::REACTIVATE, "A", "F", 5, 0), "M2");
        act("M2 A7", record(op::REACTIVATE, "*", "F", 6, 0), "A7");
        act("M2", record(op::REACTIVATE, "*", "F", 6, 0), "refused 4");
    }
}

/// Operations 1 to 5, 8 and 12 mean the first member, a link or not.
fn elsewhere(tally: &mut Tally) {
    let mut set = |number, x: &str, y: &str, from: &str, to: &str| {
        step(tally, "elsewhere", from, record(number, x, y, 0, 0), to);
    };
    set(op::OUT, "F", "-", "M0 | K A", "M0 | A");
    set(op::OUT, "F", "-", "M0 | A K", "M0 | K");
    set(op::OUT, "F", "-", "M0", "refused 3");
    set(op::INTO, "F", "H", "M0 | K A", "M0 | A K");
    set(op::INTO, "F", "H", "M0 | K Q", "M0 | Q K");
    set(op::FOLLOW, "F", "A", "M0 | K A B", "M0 | A K B");
    set(op::PRECEDE, "F", "H", "M0 | K A B", "M0 | A B K");
    set(op::FOLLOW, "C", "F", "M0 | K A", "M0 | K C A");
    set(op::PRECEDE, "C", "F", "M0 | K A", "M0 | C K A");
    set(op::FOLLOW, "F", "F", "M0 | K A", "M0 | A");
    set(op::FOLLOW, "A", "F", "M0 | K A B", "M0 | K A B");
    set(op::CLEAR, "F", "-", "M0 | K A", "refused 3");
    set(op::INTO, "A", "F", "M0 | K", "refused 3");
    set(op::INTO, "A", "F", "M0 | A", "refused 3");
    set(op::WAIT, "-", "F", "M0 A5 | K", "refused 3");
    set(op::WAIT, "-", "F", "M0 A5 | A K", "refused 3");
    set(op::WAIT, "-", "F", "M0 A5", "A5");
    set(op::EMPTY, "F", "-", "M0 | K A", "refused 3");
    set(op::EMPTY, "F", "-", "M0 | K", "refused 3");
}
