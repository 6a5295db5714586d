//! For each misreading: after how many requests of which stream would the tests have found it?

use crate::drive::tally::Tally;
use crate::expected::expected;
use crate::gen::prints::PrintSource;
use crate::gen::run_lists::{limit_lists, lists};
use crate::gen::stream::Stream;
use crate::mutations::{under, LIST};
use crate::protocol::Request;
use crate::rng::Rng;
use crate::sim::print;

/// How far each stream is followed.
const CALLS: u64 = 40_000;
const SHEETS: u64 = 400;
const PRINTED: u64 = 60;

/// The misreadings that a stream has not found yet, and where it found the others.
struct Hunt {
    found: Vec<Option<u64>>,
    asked: u64,
}

impl Hunt {
    fn new() -> Hunt {
        Hunt { found: vec![None; LIST.len()], asked: 0 }
    }

    /// Tries all that are still at large; those not `wanted` are passed over.
    fn ask(&mut self, wanted: impl Fn(usize) -> bool, differs: impl Fn() -> bool) {
        self.asked += 1;
        for i in 0..LIST.len() {
            if self.found[i].is_none() && wanted(i) && under(i + 1, &differs) {
                self.found[i] = Some(self.asked);
            }
        }
    }

    fn ask_request(&mut self, request: &Request) {
        let right = expected(request);
        self.ask(|_| true, || expected(request) != right);
    }
}

fn in_calls(seed: u64) -> Hunt {
    let mut hunt = Hunt::new();
    let mut stream = Stream::new(seed, &[]);
    for _ in 0..CALLS {
        hunt.ask_request(&stream.next().request);
    }
    hunt
}

fn in_runs(seed: u64) -> Hunt {
    let mut hunt = Hunt::new();
    let mut rng = Rng::new(seed);
    for mut list in lists(&mut rng, SHEETS, true).into_iter().chain(limit_lists()) {
        while list.goes_on() {
            let request = list.next(&mut rng);
            hunt.ask_request(&request);
            list.go_on_from(&expected(&request).lent);
        }
    }
    hunt
}

/// Only those that the first two streams have left: runs of 1,000,000 steps are slow.
fn in_print(seed: u64, at_large: &[bool]) -> Hunt {
    let mut hunt = Hunt::new();
    let mut source = PrintSource::new(seed);
    for _ in 0..PRINTED {
        let bytes = source.next();
        let right = print::text(&bytes);
        hunt.ask(|i| at_large[i], || print::text(&bytes) != right);
    }
    hunt
}

fn cell(found: Option<u64>) -> String {
    found.map_or("-".to_string(), |n| n.to_string())
}

/// Prints for each misreading the number of the request that shows it, by stream.
pub fn all(seed: u64) -> bool {
    let mut tally = Tally::new("mutations", u64::MAX);
    let (calls, runs) = (in_calls(seed), in_runs(seed));
    let at_large: Vec<bool> = (0..LIST.len()).map(|i| calls.found[i].is_none() && runs.found[i].is_none()).collect();
    let prints = in_print(seed, &at_large);
    println!("  no.   calls    runs   print  misreading");
    for (i, text) in LIST.iter().enumerate() {
        let found = [calls.found[i], runs.found[i], prints.found[i]];
        let cells: Vec<String> = found.iter().map(|&f| format!("{:>8}", cell(f))).collect();
        println!("{:>5}{}  {text}", i + 1, cells.join(""));
        tally.check(found.iter().any(Option::is_some), &format!("misreading {} is not found: {text}", i + 1));
    }
    tally.close()
}
