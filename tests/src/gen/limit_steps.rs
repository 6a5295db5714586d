//! The calls that enter sets at their limit as steps of a run, on tables that hold such sets already.

use super::crowds::{Crowd, Made};
use super::{limit, runs, Case};
use crate::protocol::{Lent, Request};
use crate::sim::accum::{Accum, MOST};
use crate::sim::call::{number, Call};
use crate::sim::run::{Run, LINE};
use crate::sim::sheet::{Record, Sheet};

/// The call as the one record of a sheet, at which all processes stand; there is room for its line.
fn step(crowd: &Crowd, made: Made, number: u32) -> Case {
    let mut model = crowd.model.clone();
    model.notices = made.notices;
    let counts = model.counts;
    let Call { x, y, .. } = made.call;
    let records = vec![Record { operation: made.call.number as u8, x, y, ..Record::default() }];
    let positions = vec![1; counts.processes as usize];
    let sheet = Sheet { counts, starts: positions.clone(), records };
    let run = Run { model, positions, accums: vec![Accum::default(); MOST] };
    let lent = Lent { trace: vec![0xA5; LINE], ..runs::lent(&run) };
    let request = Request { call: Call::new(number), counts, lent, sheet: sheet.encode() };
    Case { request, note: "a step at a set's limit" }
}

/// Every second model with its calls; every second step is asked for by a turn.
pub fn all() -> Vec<Case> {
    let mut cases = Vec::new();
    for (crowd, _) in limit::crowds().into_iter().step_by(2) {
        let asked = [number::RUN, number::TURN].into_iter().cycle();
        cases.extend(crowd.to_enter(false).into_iter().zip(asked).map(|(made, number)| step(&crowd, made, number)));
    }
    cases
}
