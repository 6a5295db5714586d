//! Records of good sheets: operations with operands mostly of the right kind, times dense in ties.

use crate::rng::Rng;
use crate::sim::accum::BOUND;
use crate::sim::call::number as op;
use crate::sim::model::{Counts, LIMIT};
use crate::sim::sheet::{Record, CURRENT};

/// What main does, with weights; it seldom leaves the axis, so that runs go on.
const MAIN: &[(u32, u64)] = &[
    (op::HOLD, 4),
    (op::ACTIVATE, 4),
    (op::REACTIVATE, 2),
    (op::INTO, 1),
    (op::FOLLOW, 1),
    (op::PRECEDE, 1),
    (op::OUT, 1),
    (op::CANCEL, 1),
    (op::CLEAR, 1),
    (op::EMPTY, 2),
    (op::ACCUM, 2),
];

/// What the other processes do.
const OTHERS: &[(u32, u64)] = &[
    (op::HOLD, 3),
    (op::PASSIVATE, 2),
    (op::WAIT, 3),
    (op::ACTIVATE, 3),
    (op::REACTIVATE, 3),
    (op::INTO, 2),
    (op::FOLLOW, 1),
    (op::PRECEDE, 1),
    (op::OUT, 1),
    (op::CANCEL, 1),
    (op::CLEAR, 1),
    (op::EMPTY, 2),
    (op::ACCUM, 2),
];

/// What the records of one sheet have in common.
pub struct Style {
    pub counts: Counts,
    /// R.
    pub size: u32,
    /// The time around which the sheet plays: 0, or one next to the limit.
    pub base: u64,
    /// How many operands in a hundred are of any kind.
    pub careless: u64,
}

/// A record without its next.
pub fn record(rng: &mut Rng, style: &Style, main: bool) -> Record {
    let mut operation = rng.weighted(if main { MAIN } else { OTHERS });
    let needs_head = matches!(operation, op::INTO | op::WAIT | op::CLEAR | op::EMPTY);
    if needs_head && style.counts.heads == 0 && rng.chance(80) {
        operation = op::HOLD;
    }
    let mut draft = Draft { rng, style };
    let mut r = Record { operation: operation as u8, ..Record::default() };
    match operation {
        op::OUT => r.x = draft.link(),
        op::FOLLOW | op::PRECEDE => draft.pair(&mut r),
        op::INTO => (r.x, r.y) = (draft.link(), draft.head()),
        op::CLEAR => r.x = draft.head(),
        op::HOLD => r.t = draft.delay(),
        op::WAIT => r.y = draft.head(),
        op::CANCEL => r.x = draft.process(),
        op::ACTIVATE | op::REACTIVATE => draft.activation(&mut r),
        op::EMPTY => (r.x, r.y) = (draft.head(), draft.rng.between(0, style.size)),
        op::ACCUM => draft.accum(&mut r),
        _ => {}
    }
    r
}

struct Draft<'a> {
    rng: &'a mut Rng,
    style: &'a Style,
}

impl Draft<'_> {
    /// Any operand that the layout allows, now and then; else the one given.
    fn or_any(&mut self, value: u32) -> u32 {
        if !self.rng.chance(self.style.careless) {
            return value;
        }
        let c = self.style.counts;
        if self.rng.chance(30) {
            CURRENT + self.rng.between(0, c.heads)
        } else {
            self.rng.between(0, c.total())
        }
    }

    /// The first member of some head; current where there is no head.
    fn first(&mut self) -> u32 {
        CURRENT + if self.style.counts.heads == 0 { 0 } else { self.rng.between(1, self.style.counts.heads) }
    }

    fn head(&mut self) -> u32 {
        let heads = self.style.counts.heads;
        let none = heads == 0 || self.rng.chance(2);
        let head = if none { 0 } else { self.rng.between(1, heads) };
        self.or_any(head)
    }

    fn process(&mut self) -> u32 {
        let c = self.style.counts;
        let process = match self.rng.below(20) {
            0..=2 => CURRENT,
            3..=5 => self.first(),
            6 => c.main(),
            7 if self.rng.chance(40) => 0,
            _ => self.rng.between(c.heads + 1, c.heads + c.processes),
        };
        self.or_any(process)
    }

    fn link(&mut self) -> u32 {
        let c = self.style.counts;
        let link = match self.rng.below(20) {
            0..=3 => CURRENT,
            4 => self.first(),
            _ => self.rng.between(c.heads + 1, c.total()),
        };
        self.or_any(link)
    }

    fn party(&mut self) -> u32 {
        match self.rng.below(10) {
            0..=3 => self.head(),
            4 | 5 => self.first(),
            _ => self.link(),
        }
    }

    /// Both parties of follow and precede, at times the same words for both.
    fn pair(&mut self, r: &mut Record) {
        r.x = self.link();
        r.y = if self.rng.chance(10) { r.x } else { self.party() };
    }

    /// 0 to 3 ticks mostly, so that times meet.
    fn delay(&mut self) -> i64 {
        match self.rng.below(40) {
            0 => self.rng.pick(&[i64::MIN, i64::MAX, LIMIT as i64, -1]),
            1 | 2 => -(self.rng.below(4) as i64),
            3 | 4 => self.rng.below(20) as i64,
            _ => self.rng.below(4) as i64,
        }
    }

    fn tick(&mut self) -> i64 {
        match self.rng.below(40) {
            0 => self.rng.pick(&[i64::MIN, i64::MAX, LIMIT as i64, LIMIT as i64 + 1, -5]),
            _ => (self.style.base + self.rng.below(12)) as i64,
        }
    }

    fn activation(&mut self, r: &mut Record) {
        r.clause = self.rng.between(0, 6) as u8;
        r.x = self.process();
        match r.clause {
            1 | 3 => r.t = self.tick(),
            2 | 4 => r.t = self.delay(),
            5 | 6 => r.y = if self.rng.chance(10) { r.x } else { self.process() },
            _ => {}
        }
    }

    fn accum(&mut self, r: &mut Record) {
        r.x = self.rng.pick(&[1, 1, 1, 2, 2, 3, 63, 64]);
        r.t = match self.rng.below(20) {
            0 => self.rng.pick(&[BOUND, -BOUND, BOUND + 1, i64::MIN, i64::MAX]),
            1 => self.rng.pick(&[BOUND / 2, -BOUND / 2, BOUND - 1]),
            _ => self.rng.below(9) as i64 - 4,
        };
    }
}
