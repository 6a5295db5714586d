//! Good models, grown from fresh by accepted calls on the lists.

use super::operands::{call, Manner};
use crate::rng::Rng;
use crate::sim::call::{number, Call};
use crate::sim::model::{Counts, Model, LIMIT, MAX_HEADS, MAX_PLAIN, MAX_PROCESSES};

/// The calls that grow a model, with weights. A finish comes seldom.
const GROWING: &[(u32, u64)] = &[
    (number::OUT, 4),
    (number::FOLLOW, 8),
    (number::PRECEDE, 8),
    (number::INTO, 12),
    (number::HOLD, 8),
    (number::PASSIVATE, 4),
    (number::WAIT, 4),
    (number::CANCEL, 4),
    (number::ACTIVATE, 24),
    (number::REACTIVATE, 8),
    (number::FINISH, 2),
];

/// Small counts mostly, now and then middling ones or the limits.
pub fn counts(rng: &mut Rng) -> Counts {
    match rng.below(100) {
        0 => Counts::new(rng.pick(&[MAX_HEADS, MAX_HEADS, 8, 1]), MAX_PROCESSES, MAX_PLAIN),
        1 => Counts::new(MAX_HEADS, rng.between(1, 3), 0),
        2 => Counts::new(rng.between(0, 2), MAX_PROCESSES, rng.between(0, 3)),
        3 => Counts::new(rng.between(1, 3), rng.between(1, 3), MAX_PLAIN),
        4..=9 => Counts::new(rng.between(0, 12), rng.between(1, 40), rng.between(0, 40)),
        10..=14 => Counts::new(rng.between(0, 2), 1, rng.between(0, 3)),
        _ => Counts::new(rng.between(0, 4), rng.between(2, 8), rng.between(0, 5)),
    }
}

/// A model that goes on from call to call, and is begun anew after a while.
pub struct Walk {
    pub model: Model,
    left: u32,
}

impl Walk {
    pub fn new(rng: &mut Rng) -> Walk {
        let left = rng.between(5, 40);
        Walk { model: grown(rng), left }
    }

    /// A few more calls, or another model.
    pub fn go_on(&mut self, rng: &mut Rng) {
        if self.left == 0 {
            *self = Walk::new(rng);
        }
        self.left -= 1;
        for _ in 0..rng.below(4) {
            grow(rng, &mut self.model);
        }
    }
}

/// One more call; a refused one changes nothing.
pub fn grow(rng: &mut Rng, model: &mut Model) {
    let number = rng.weighted(GROWING);
    let call = call(rng, model, number, Manner::Tame);
    let _ = model.make(call);
}

/// A model of any counts, at an early, late or any time, with some calls behind it.
pub fn grown(rng: &mut Rng) -> Model {
    let mut model = Model::fresh(counts(rng));
    if rng.chance(30) {
        start_late(rng, &mut model);
    }
    if rng.chance(75) {
        fill(rng, &mut model);
    }
    for _ in 0..rng.below(30) {
        grow(rng, &mut model);
    }
    model
}

/// Main holds until a late time, often one next to the limit.
fn start_late(rng: &mut Rng, model: &mut Model) {
    let late = if rng.chance(70) { LIMIT - rng.below(5) } else { rng.below(LIMIT) };
    let _ = model.make(Call { t: late as i64, ..Call::new(number::HOLD) });
}

/// Most links go into sets and many processes get a notice.
pub fn fill(rng: &mut Rng, model: &mut Model) {
    let c = model.counts;
    let full = rng.between(30, 100);
    for x in c.heads + 1..=c.total() {
        if c.heads > 0 && rng.chance(u64::from(full)) {
            let y = rng.between(1, c.heads);
            let _ = model.make(Call { x, y, ..Call::new(number::INTO) });
        }
        if c.is_process(x) && rng.chance(u64::from(full)) {
            let mut activate = call(rng, model, number::ACTIVATE, Manner::Tame);
            activate.x = x;
            let _ = model.make(activate);
        }
    }
}
