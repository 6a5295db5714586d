//! Warnings: steps that are refused whenever they are made, since an operand or a number can never do.

use super::declare::Declared;
use super::statement::Statement;
use crate::operations::Wants;
use crate::report::{Place, Report};
use crate::sheet::{Kind, Record, CURRENT, LATEST, MOST_RATE};

/// Looks at the operands of a statement, and at its number.
pub fn judge(read: &Statement, place: Place, declared: &Declared, report: &mut Report) {
    let name = &read.row.title();
    let (wants_x, wants_y) = (read.row.wants_x(), read.row.wants_y());
    let bad_x = |record: &&Record| wants_x.is_some_and(|wants| !can_be(record.x, wants, declared));
    let bad_y = |record: &&Record| wants_y.is_some_and(|wants| !can_be(record.y, wants, declared));
    let x = read.records.iter().find(bad_x);
    let y = read.records.first().filter(bad_y);
    if let (Some(wants), Some(record)) = (wants_x, x) {
        let turned = wants_y.filter(|other| can_be(record.x, *other, declared) && can_be(record.y, wants, declared));
        let words = never(name, record.x, wants, declared);
        if y.is_some() && turned.is_some() {
            return report.warning(read.x_place, words + "; it would do the other way round");
        }
        report.warning(read.x_place, words);
    }
    if let (Some(wants), Some(record)) = (wants_y, y) {
        report.warning(read.y_place, never(name, record.y, wants, declared));
    }
    if let Some(words) = read.records.first().and_then(number) {
        report.warning(place, words);
    }
}

/// Whether the operand can be of the kind that its step takes. The first process of a queue, or none, always is.
fn can_be(value: u32, wants: Wants, declared: &Declared) -> bool {
    match value {
        CURRENT => Kind::Process.will_do(wants),
        CURRENT.. => [Kind::None, Kind::Process, Kind::Link].iter().any(|kind| kind.will_do(wants)),
        _ => declared.counts().kind(value).will_do(wants),
    }
}

fn never(name: &str, value: u32, wants: Wants, declared: &Declared) -> String {
    let is = match (value, declared.counts().kind(value)) {
        (CURRENT, _) => "current is a process".to_string(),
        (CURRENT.., _) => "the first member of a queue is a process, a link or none".to_string(),
        (_, Kind::None) => "this is none".to_string(),
        (_, kind) => format!("'{}' is {}", declared.name_of(value), kind.words()),
    };
    format!("this step is always refused with 3: {is}, and '{name}' takes {}", wants.words())
}

/// A hold past the latest tick, or a rate past its limit.
fn number(record: &Record) -> Option<String> {
    match record.operation {
        6 if record.t > LATEST as i64 => {
            Some(format!("this step is always refused with 5: the latest tick is {LATEST}"))
        }
        13 if !(-2 * MOST_RATE..=2 * MOST_RATE).contains(&record.t) => {
            Some(format!("this step is always refused with 7: a rate lies between -{MOST_RATE} and {MOST_RATE}"))
        }
        _ => None,
    }
}
