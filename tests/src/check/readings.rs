//! The papers' sentences worked out by hand on small scenes.

use super::scene::{call, linkage, row};
use crate::drive::tally::Tally;
use crate::sim::call::{number as op, Call};

/// The latest time in a scene.
const LATE: &str = "M1099511627775";

pub fn check(tally: &mut Tally) {
    sets(tally);
    leaving(tally);
    activations(tally);
    without_effect(tally);
    limits(tally);
    queries(tally);
}

fn sets(tally: &mut Tally) {
    let mut set = |number, x: &str, y: &str, from: &str, to: &str| {
        row(tally, "sets", &format!("M0 | {from}"), call(number, x, y, 0, 0), to);
    };
    set(op::FOLLOW, "K", "H", "A B", "M0 | K A B");
    set(op::PRECEDE, "K", "H", "A B", "M0 | A B K");
    set(op::FOLLOW, "K", "A", "A B", "M0 | A K B");
    set(op::PRECEDE, "B", "A", "A B", "M0 | B A : 1");
    set(op::FOLLOW, "A", "K", "A B", "M0 | B : 1");
    set(op::FOLLOW, "A", "-", "A B", "M0 | B : 1");
    set(op::INTO, "A", "-", "A B", "M0 | B : 1");
    set(op::INTO, "A", "H", "A B", "M0 | B A : 1");
    set(op::INTO, "B", "H", "A B", "M0 | A B : 1");
    set(op::FOLLOW, "B", "A", "A B", "M0 | A B : 1");
    set(op::FOLLOW, "A", "A", "A B", "M0 | B : 1");
    set(op::PRECEDE, "K", "K", "A B", "M0 | A B");
    set(op::INTO, "A", "B", "A B", "refused 3");
    set(op::INTO, "K", "A", "A B", "refused 3");
    set(op::INTO, "H", "H", "A B", "refused 3");
    set(op::OUT, "K", "-", "A B", "M0 | A B");
    set(op::OUT, "A", "-", "A B", "M0 | B : 1");
    set(op::OUT, "-", "-", "A B", "refused 3");
    set(op::CLEAR, "H", "-", "A B Q", "M0 : 3");
    set(op::CLEAR, "H", "-", "", "M0");
    set(op::CLEAR, "-", "-", "A B", "refused 3");
    set(op::CLEAR, "A", "-", "A B", "refused 3");
}

fn leaving(tally: &mut Tally) {
    let mut leave = |number, x: &str, y: &str, from: &str, to: &str| {
        row(tally, "leaving the axis", from, call(number, x, y, 0, 0), to);
    };
    leave(op::PASSIVATE, "-", "-", "M0", "refused 4");
    leave(op::PASSIVATE, "-", "-", "M0 A0", "A0");
    leave(op::WAIT, "-", "H", "M0 A0 | B", "A0 | B M");
    leave(op::WAIT, "-", "-", "M0 A0 | M B", "A0 | B : 1");
    leave(op::WAIT, "-", "H", "M0 A0 | M B", "A0 | B M : 1");
    leave(op::WAIT, "-", "H", "M0 A0 | A", "A0 | A M");
    leave(op::WAIT, "-", "H", "M0 | B", "refused 4");
    leave(op::WAIT, "-", "H", "M0 | M", "refused 4");
    leave(op::WAIT, "-", "B", "M0 A0 | B", "refused 3");
    leave(op::CANCEL, "-", "-", "M0", "M0");
    leave(op::CANCEL, "A", "-", "M0", "M0");
    leave(op::CANCEL, "M", "-", "M0", "refused 4");
    leave(op::CANCEL, "M", "-", "M0 A7", "A7");
    leave(op::CANCEL, "K", "-", "M0 A7", "refused 3");
    leave(op::FINISH, "-", "-", "M0 A7", "refused 3");
    leave(op::FINISH, "-", "-", "M0", "refused 3");
    leave(op::FINISH, "-", "-", "A3 M7", "M7 |  | A");
    leave(op::FINISH, "-", "-", "A3", "refused 4");
}

fn activations(tally: &mut Tally) {
    let mut act = |again: bool, x: &str, clause: u32, y: &str, t: i64, from: &str, to: &str| {
        let number = if again { op::REACTIVATE } else { op::ACTIVATE };
        row(tally, "activations", from, call(number, x, y, clause, t), to);
    };
    act(false, "C", 1, "-", 3, "M3 A3 B9", "M3 A3 C3 B9");
    act(false, "C", 1, "-", -9, "M3 A3 B9", "M3 A3 C3 B9");
    act(false, "C", 3, "-", 3, "M3 A3 B9", "C3 M3 A3 B9");
    act(false, "C", 3, "-", 9, "M3 A3 B9", "M3 A3 C9 B9");
    act(false, "C", 4, "-", 6, "M3 A3 B9", "M3 A3 C9 B9");
    act(false, "C", 4, "-", i64::MIN, "M3 A3 B9", "C3 M3 A3 B9");
    act(false, "C", 2, "-", i64::MIN, "M3 A3 B9", "M3 A3 C3 B9");
    act(false, "C", 6, "M", 0, "M3 A3 B9", "M3 C3 A3 B9");
    act(false, "C", 5, "A", 0, "M3 A3 B9", "M3 C3 A3 B9");
    act(false, "C", 5, "M", 0, "M3 A3 B9", "C3 M3 A3 B9");
    act(false, "C", 5, "-", 0, "M3 A3 B9", "M3 A3 B9");
    act(true, "M", 2, "-", 2, "M3 A4 B9", "A4 M5 B9");
    act(true, "M", 0, "-", 0, "M3 A3 B9", "M3 A3 B9");
    act(true, "B", 0, "-", 0, "M3 A3 B9", "B3 M3 A3");
    act(true, "A", 1, "-", 9, "M3 A3 B9", "M3 B9 A9");
    act(true, "A", 3, "-", 9, "M3 A3 B9", "M3 A9 B9");
    act(true, "M", 5, "B", 0, "M3 A3 B9", "A3 M9 B9");
    act(true, "B", 6, "C", 0, "M3 A3 B9", "M3 A3");
    act(true, "C", 6, "-", 0, "M3", "M3");
    act(true, "C", 5, "C", 0, "M3", "M3");
}

fn without_effect(tally: &mut Tally) {
    let mut none = |number, x: &str, clause: u32, y: &str, t: i64, to: &str| {
        row(tally, "without effect", "M3 A3 |  | B", call(number, x, y, clause, t), to);
    };
    let same = "M3 A3 |  | B";
    none(op::ACTIVATE, "A", 0, "-", 0, same);
    none(op::ACTIVATE, "A", 1, "-", i64::MAX, same);
    none(op::ACTIVATE, "B", 2, "-", i64::MAX, same);
    none(op::REACTIVATE, "B", 1, "-", i64::MAX, same);
    none(op::REACTIVATE, "-", 1, "-", i64::MAX, same);
    none(op::REACTIVATE, "A", 6, "A", 0, same);
    none(op::ACTIVATE, "-", 5, "K", 0, "refused 3");
    none(op::ACTIVATE, "A", 6, "H", 0, "refused 3");
    none(op::ACTIVATE, "-", 7, "-", 0, "refused 3");
    none(op::ACTIVATE, "K", 0, "-", 0, "refused 3");
    let unused = Call { y: 99, t: i64::MAX, ..call(op::ACTIVATE, "C", "-", 0, 0) };
    row(tally, "unused y and t", "M3", unused, "C3 M3");
    let range = Call { x: 65_536, ..call(op::CANCEL, "-", "-", 0, 0) };
    row(tally, "no operand outside a sheet", "M3", range, "refused 3");
}

fn limits(tally: &mut Tally) {
    let mut limit = |number, clause, t, from: &str, to: &str| {
        row(tally, "limits", from, call(number, "A", "-", clause, t), to);
    };
    limit(op::HOLD, 0, 1, LATE, "refused 5");
    limit(op::HOLD, 0, 0, LATE, LATE);
    limit(op::HOLD, 0, i64::MAX, "M1", "refused 5");
    limit(op::HOLD, 0, i64::MIN, "M1 B1", "B1 M1");
    limit(op::ACTIVATE, 2, i64::MAX, "M1", "refused 5");
    limit(op::ACTIVATE, 1, 1_099_511_627_776, "M1", "refused 5");
    limit(op::ACTIVATE, 1, 1_099_511_627_775, "M1", "M1 A1099511627775");
    limit(op::ACTIVATE, 2, 1_099_511_627_774, "M1", "M1 A1099511627775");
    limit(op::REACTIVATE, 4, 1_099_511_627_775, "M1 A2", "refused 5");
}

fn queries(tally: &mut Tally) {
    let from = "A3 M7 | B K M | C";
    let mut query = |number, x: &str, wanted: u32| {
        let to = if wanted == 0 { from.to_string() } else { format!("answer {wanted}") };
        row(tally, "queries", from, call(number, x, "-", 0, 0), &to);
    };
    query(op::FIRST, "H", linkage("B"));
    query(op::LAST, "H", linkage("M"));
    query(op::SUC, "H", linkage("B"));
    query(op::PRED, "H", linkage("M"));
    query(op::SUC, "B", linkage("K"));
    query(op::SUC, "M", 0);
    query(op::PRED, "B", 0);
    query(op::SUC, "Q", 0);
    query(op::CARDINAL, "H", 3);
    query(op::EMPTY, "H", 0);
    query(op::CURRENT, "-", linkage("A"));
    query(op::TIME, "-", 3);
    query(op::IDLE, "C", 1);
    query(op::TERMINATED, "C", 1);
    query(op::TERMINATED, "B", 0);
    query(op::EVTIME, "M", 7);
    query(op::NEXTEV, "A", linkage("M"));
    query(op::NEXTEV, "M", 0);
    query(op::NEXTEV, "B", 0);
    row(tally, "queries", from, call(op::EVTIME, "B", "-", 0, 0), "refused 6");
    row(tally, "queries", from, call(op::EVTIME, "C", "-", 0, 0), "refused 6");
    row(tally, "queries", from, call(op::SUC, "-", "-", 0, 0), "refused 3");
    row(tally, "queries", from, call(op::IDLE, "K", "-", 0, 0), "refused 3");
}
