//! Accumulators: good ones, some at their limits, and bad ones.

use crate::rng::Rng;
use crate::sim::accum::{Accum, BOUND};

/// A number from -most to most, often at an end or 0.
fn within(rng: &mut Rng, most: i64) -> i64 {
    match rng.below(6) {
        0 => most,
        1 => -most,
        2 => 0,
        _ => {
            let size = rng.below(most as u64 + 1) as i64;
            if rng.chance(50) {
                size
            } else {
                -size
            }
        }
    }
}

/// One as required at this time.
pub fn good(rng: &mut Rng, time: u64) -> Accum {
    let b = match rng.below(4) {
        0 => 0,
        1 => time as i64,
        _ => rng.below(time + 1) as i64,
    };
    let c = if rng.chance(40) { within(rng, 9) } else { within(rng, BOUND) };
    Accum { a: within(rng, BOUND * b), b, c }
}

/// One that is not as required, by one field.
pub fn bad(rng: &mut Rng, time: u64) -> Accum {
    let mut accum = good(rng, time);
    let now = time as i64;
    match rng.below(3) {
        0 => accum.b = rng.pick(&[now + 1, -1, i64::MIN, i64::MAX, now + 1_000]),
        1 => accum.c = rng.pick(&[BOUND + 1, -BOUND - 1, i64::MIN, i64::MAX]),
        _ => {
            let most = BOUND * accum.b;
            accum.a = rng.pick(&[most + 1, -most - 1, i64::MIN, i64::MAX]);
        }
    }
    accum
}

/// A list of this length, some of it bad.
pub fn list(rng: &mut Rng, len: usize, time: u64) -> Vec<Accum> {
    (0..len).map(|_| if rng.chance(12) { bad(rng, time) } else { good(rng, time) }).collect()
}

/// What c grows by: up to its bound, one past it, or anything.
pub fn growth(rng: &mut Rng, c: i64) -> i64 {
    match rng.below(10) {
        0 => BOUND.saturating_sub(c),
        1 => BOUND.saturating_sub(c).saturating_add(1),
        2 => (-BOUND).saturating_sub(c),
        3 => (-BOUND).saturating_sub(c).saturating_sub(1),
        4 => rng.pick(&[i64::MIN, i64::MAX, BOUND, -BOUND]),
        5 => rng.next() as i64,
        _ => within(rng, 20),
    }
}
