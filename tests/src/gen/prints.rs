//! Sheets for the printing program.

use super::{sheet_damage, sheets, special};
use crate::rng::Rng;
use crate::sim::print::text_within;
use crate::sim::sheet::Sheet;

/// Steps of an ordinary run here; longer ones are built by hand.
const ORDINARY: u32 = 20_000;

/// The sheets built by hand first, then random ones; bytes as they go to standard input.
pub struct PrintSource {
    rng: Rng,
    /// Taken from its end.
    by_hand: Vec<Sheet>,
}

impl PrintSource {
    pub fn new(seed: u64) -> PrintSource {
        let by_hand = special::all().into_iter().rev().collect();
        PrintSource { rng: Rng::new(seed), by_hand }
    }

    pub fn next(&mut self) -> Vec<u8> {
        if let Some(sheet) = self.by_hand.pop() {
            return sheet.encode();
        }
        match self.rng.below(100) {
            0..=19 => {
                let sheet = sheets::any(&mut self.rng);
                sheet_damage::any(&mut self.rng, sheet).1
            }
            20 => {
                let length = self.rng.pick(&[1, 15, 16, 100, 52_112, 52_113, 60_000, 200_000]);
                self.rng.bytes(length)
            }
            _ => self.ordinary(),
        }
    }

    /// A good sheet whose run comes to an end before long.
    fn ordinary(&mut self) -> Vec<u8> {
        loop {
            let bytes = sheets::any(&mut self.rng).encode();
            if text_within(&bytes, ORDINARY).is_some() {
                return bytes;
            }
        }
    }
}
