//! Sheets for the desk, which has to show every one that is accepted.

use super::{extreme, sheet_damage, sheets, special};
use crate::rng::Rng;
use crate::sim::sheet::Sheet;

/// The sheets built by hand first, then random ones, about one in five damaged.
pub struct ShownSource {
    rng: Rng,
    /// Taken from its end.
    by_hand: Vec<Sheet>,
}

impl ShownSource {
    pub fn new(seed: u64) -> ShownSource {
        let mut rng = Rng::new(seed);
        let mut by_hand = special::all();
        by_hand.extend(extreme::all(&mut rng));
        by_hand.reverse();
        ShownSource { rng, by_hand }
    }

    pub fn next(&mut self) -> Vec<u8> {
        if let Some(sheet) = self.by_hand.pop() {
            return sheet.encode();
        }
        match self.rng.below(100) {
            0..=19 => {
                let sheet = self.good();
                sheet_damage::any(&mut self.rng, sheet).1
            }
            20 => {
                let length = self.rng.pick(&[1, 15, 16, 100, 52_112, 52_113, 60_000]);
                self.rng.bytes(length)
            }
            _ => self.good().encode(),
        }
    }

    /// A sheet that makes sense mostly, at times one in which everything goes anywhere.
    fn good(&mut self) -> Sheet {
        if self.rng.chance(75) {
            sheets::any(&mut self.rng)
        } else {
            extreme::any(&mut self.rng)
        }
    }
}
