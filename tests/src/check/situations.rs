//! The twelve named situations and the worked sheet of document 01.

use super::scene::{call, row};
use crate::drive::tally::Tally;
use crate::gen::special;
use crate::sim::call::number as op;
use crate::sim::print;
use crate::sim::sheet::{decode, Sheet};

pub fn check(tally: &mut Tally) {
    twelve(tally);
    sheets(tally);
}

fn twelve(tally: &mut Tally) {
    let activate = |x: &str, clause: u32, t: i64| call(op::ACTIVATE, x, "-", clause, t);
    let hold = |t: i64| call(op::HOLD, "-", "-", 0, t);
    let mut situation = |n: u32, from: &str, call, to: &str| row(tally, &format!("situation {n}"), from, call, to);
    situation(1, "M0", call(op::JUDGE, "-", "-", 0, 0), "M0");
    situation(2, "M0", activate("A", 0, 0), "A0 M0");
    situation(3, "M0", activate("A", 2, 5), "M0 A5");
    situation(4, "M0 A5", activate("B", 1, 5), "M0 A5 B5");
    situation(5, "M0 A5 B5", activate("C", 3, 5), "M0 C5 A5 B5");
    situation(6, "M0 C5 A5 B5", hold(5), "C5 A5 B5 M5");
    situation(7, "M0 A5", hold(0), "M0 A5");
    situation(8, "A0 M0", hold(-3), "M0 A0");
    situation(9, "M0 A5", call(op::REACTIVATE, "A", "A", 5, 0), "M0 A5");
    situation(10, "M0 A5", call(op::REACTIVATE, "M", "B", 6, 0), "A5");
    situation(11, "M0", call(op::REACTIVATE, "M", "B", 6, 0), "refused 4");
    situation(12, "M0 | A", call(op::FOLLOW, "A", "A", 0, 0), "M0 : 1");
}

/// The worked sheet, and others whose last line is easily told.
fn sheets(tally: &mut Tally) {
    let worked = special::worked().encode();
    tally.check(worked.len() == 16 + 8 + 72, "the worked sheet has 96 bytes");
    tally.check(print::text(&worked) == special::WORKED_TEXT, "the worked sheet's text");
    tally.check(print::text(&worked[..95]) == "sheet refused 8\n", "95 bytes, R = 3");
    tally.check(decode(&worked).is_ok_and(|sheet| sheet == special::worked()), "the worked sheet decoded");
    let mut last = |sheet: Sheet, wanted: &str| {
        let text = print::text(&sheet.encode());
        let got = text.lines().last().unwrap_or("").to_string();
        tally.check(got == wanted, &format!("wanted {wanted}, got {got}"));
    };
    last(special::without_records(), "finished 0");
    last(special::lonely_finish(), "refused 4 at record 0 after 3");
    last(special::endless(), "stopped 1000000");
    last(special::never_back(), "stopped 1000000");
    last(special::counted(40, special::After::Ends), "finished 40");
    last(special::counted(41, special::After::Refused), "refused 3 at record 8 after 41");
    last(special::counted(40, special::After::Elsewhere), "finished 41");
    last(special::counted(999_999, special::After::Refused), "refused 3 at record 8 after 999999");
    last(special::counted(1_000_000, special::After::Ends), "finished 1000000");
    last(special::counted(1_000_000, special::After::Refused), "stopped 1000000");
    last(special::counted(1_000_000, special::After::Elsewhere), "stopped 1000000");
    last(special::counted(1_000_001, special::After::Ends), "stopped 1000000");
}
