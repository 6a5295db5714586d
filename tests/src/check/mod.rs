//! Checks of the simulator and of the generators themselves.

pub mod catches;
pub mod histogram;
pub mod left;
pub mod limit;
pub mod limit_runs;
pub mod limit_ways;
pub mod queues;
pub mod reached;
pub mod readings;
pub mod scene;
pub mod situations;
pub mod sound;

use crate::drive::tally::Tally;

/// All checks of the simulator itself.
pub fn all(seed: u64) -> bool {
    let mut tally = Tally::new("self", u64::MAX);
    situations::check(&mut tally);
    readings::check(&mut tally);
    queues::check(&mut tally);
    reached::check(&mut tally);
    limit_runs::check(&mut tally);
    sound::check(&mut tally, seed);
    histogram::check(&mut tally, seed);
    tally.close()
}
