//! Accumulators: a is the integral of c over time, b the time up to which it is worked out.

use super::model::{require, Refusal};
use crate::mutations::{on, M};

/// The bound of |c|, and of |a| for each tick of b.
pub const BOUND: i64 = 1_000_000;
/// How many accumulators a run keeps, and how many a lent list may hold.
pub const MOST: usize = 64;

#[derive(Clone, Copy, Debug, Default, PartialEq, Eq)]
pub struct Accum {
    pub a: i64,
    pub b: i64,
    pub c: i64,
}

impl Accum {
    /// 0 <= b <= time, |a| <= 1,000,000 x b, |c| <= 1,000,000; in whole numbers.
    pub fn as_required(self, time: u64) -> bool {
        let (a, b, c) = (i128::from(self.a), i128::from(self.b), i128::from(self.c));
        let bound = i128::from(BOUND);
        let ticks = if on(M::AccumBoundByTime) { i128::from(time) } else { b };
        0 <= b && b <= i128::from(time) && a.abs() <= bound * ticks && c.abs() <= bound
    }

    /// a grows by c x (time - b), b becomes time, c grows by d.
    pub fn update(&mut self, time: u64, d: i64) -> Result<(), Refusal> {
        require(self.as_required(time), 7)?;
        let sum = i128::from(self.c) + i128::from(d);
        require(sum.abs() <= i128::from(BOUND) || on(M::AccumSumFree), 7)?;
        let sum = clamp(sum);
        let rate = if on(M::AccumAddsFirst) { sum } else { self.c };
        let grown = i128::from(self.a) + i128::from(rate) * (i128::from(time) - i128::from(self.b));
        self.a = clamp(grown);
        if !on(M::AccumClockKept) {
            self.b = time as i64;
        }
        self.c = sum;
        Ok(())
    }
}

/// Into 64 bits; only a misreading ever leaves them.
fn clamp(value: i128) -> i64 {
    value.clamp(i128::from(i64::MIN), i128::from(i64::MAX)) as i64
}

/// Number x of a lent list: the length is 1, the number 3, the accumulator itself 7.
pub fn update_numbered(list: &mut [Accum], x: u32, time: u64, d: i64) -> Result<(), Refusal> {
    require(x >= 1 && x as usize <= list.len(), 3)?;
    list[x as usize - 1].update(time, d)
}

/// Whether a list may be lent to accum: 1 to 64 of them.
pub fn list_in_limits(list: &[Accum]) -> bool {
    (1..=MOST).contains(&list.len())
}
