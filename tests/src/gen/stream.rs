//! The stream of requests that tests single calls, the same for the same seed and choice of calls.

use super::models::Walk;
use super::operands::{call, Manner};
use super::{accums, damage, leaving, limit, limit_steps, long_rings, runs, Case};
use crate::expected::known;
use crate::protocol::{Lent, Request};
use crate::rng::Rng;
use crate::sim::call::{number, Call};
use crate::sim::tables::encode;

/// How often each call is made; those with more ways to go more often.
fn weight(call: u32) -> u64 {
    match call {
        number::REACTIVATE => 5,
        number::ACTIVATE => 4,
        number::RUN => 3,
        number::CLEAR | number::PASSIVATE | number::EMPTY | number::FIRST..=number::NEXTEV => 1,
        _ => 2,
    }
}

/// Every call number that the stream can make.
pub fn all_calls() -> Vec<u32> {
    (0..=number::TURN).filter(|&call| known(call)).collect()
}

pub struct Stream {
    rng: Rng,
    walk: Walk,
    calls: Vec<(u32, u64)>,
    /// These come first: queues that links leave, sets at their limit, by calls and by steps, and rings past it.
    by_hand: std::vec::IntoIter<Case>,
}

impl Stream {
    /// A stream of the calls in `only`, all of them known; of all calls if that is empty.
    pub fn new(seed: u64, only: &[u32]) -> Stream {
        let mut rng = Rng::new(seed);
        let walk = Walk::new(&mut rng);
        let chosen = all_calls().into_iter().filter(|call| only.is_empty() || only.contains(call));
        let calls: Vec<(u32, u64)> = chosen.map(|call| (call, weight(call))).collect();
        let mut by_hand = leaving::all();
        by_hand.extend(limit::all());
        by_hand.extend(limit_steps::all());
        by_hand.extend(long_rings::all());
        by_hand.retain(|case| calls.iter().any(|(call, _)| *call == case.request.call.number));
        Stream { rng, walk, calls, by_hand: by_hand.into_iter() }
    }

    pub fn next(&mut self) -> Case {
        if let Some(case) = self.by_hand.next() {
            return case;
        }
        let number = self.rng.weighted(&self.calls);
        match number {
            number::RUN => return runs::case(&mut self.rng),
            number::TURN => return runs::turn(&mut self.rng),
            number::FRESH => return runs::fresh(&mut self.rng),
            number::CHECK => return runs::check(&mut self.rng),
            _ => {}
        }
        if leaving::has(number) && self.rng.chance(8) {
            return leaving::any(&mut self.rng, number);
        }
        if limit::has(number) && self.rng.chance(8) {
            return limit::any(&mut self.rng, number);
        }
        self.walk.go_on(&mut self.rng);
        if number == number::FINISH && self.rng.chance(60) {
            self.leave_main();
        }
        self.direct(number)
    }

    /// Another process becomes current, if there is one: main can't finish.
    fn leave_main(&mut self) {
        let model = &mut self.walk.model;
        if model.current() == model.counts.main() && model.notices.len() > 1 {
            let _ = model.make(Call::new(number::PASSIVATE));
        }
    }

    /// A call on the tables of the model as it has grown, or on damaged ones.
    fn direct(&mut self, number: u32) -> Case {
        let rng = &mut self.rng;
        let model = &self.walk.model;
        let mut call = call(rng, model, number, Manner::Wild);
        let (mut lent, mut sheet) = (Lent::default(), Vec::new());
        match number {
            number::ACCUM | number::ACCUM_ALONE | number::ACCUM_IN_PLACE | number::ACCUM_BY_VALUE => {
                accumulators(rng, model.time(), &mut call, &mut lent);
            }
            _ if rng.chance(5) => sheet = by_the_way(rng, &mut lent),
            _ => {}
        }
        let often = matches!(number, number::JUDGE | number::FRESH_MODEL);
        let damaged = rng.chance(if often { 50 } else { 18 });
        let (counts, note) = if damaged {
            let (class, damaged) = damage::any(rng, model);
            lent.tables = damaged.tables;
            (damaged.counts, class.name)
        } else {
            lent.tables = encode(model);
            (model.counts, if rng.chance(3) { scrambled(rng, &mut lent) } else { "" })
        };
        Case { request: Request { call, counts, lent, sheet }, note }
    }
}

fn scrambled(rng: &mut Rng, lent: &mut Lent) -> &'static str {
    damage::scramble(rng, &mut lent.tables);
    "some words changed at random"
}

/// A list for accum, its number and its growth. One lent alone is the first of at least one.
fn accumulators(rng: &mut Rng, time: u64, call: &mut Call, lent: &mut Lent) {
    let numbered = matches!(call.number, number::ACCUM | number::ACCUM_IN_PLACE);
    let length = match rng.below(20) {
        0 if numbered => rng.pick(&[0, 65, 66, 80]),
        0..=2 => 64,
        3..=5 => rng.between(1, 64) as usize,
        _ => rng.between(1, 6) as usize,
    };
    lent.accums = accums::list(rng, length, time);
    if numbered {
        let last = length as u32;
        call.x = rng.between(1, last.max(1));
        if rng.chance(15) {
            call.x = rng.pick(&[0, last + 1, 64, 65, 65_536, u32::MAX]);
        }
    }
    let at = if numbered { call.x.wrapping_sub(1) as usize } else { 0 };
    let c = lent.accums.get(at).map_or(0, |accum| accum.c);
    call.t = accums::growth(rng, c);
}

/// Tables that the call has nothing to do with; they stay as they are. Gives a sheet as well.
fn by_the_way(rng: &mut Rng, lent: &mut Lent) -> Vec<u8> {
    let (accums, positions, trace, sheet) = (rng.index(4), rng.index(9), rng.index(40), rng.index(60));
    lent.accums = accums::list(rng, accums, 1_000);
    lent.positions = (0..positions).map(|_| rng.next() as u32).collect();
    lent.trace = rng.bytes(trace);
    rng.bytes(sheet)
}
