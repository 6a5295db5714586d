//! Which calls and refusals the generated streams come to.

use super::left::Left;
use super::limit::Limit;
use super::reached::Reached;
use crate::drive::tally::Tally;
use crate::expected::expected;
use crate::gen::run_lists::lists;
use crate::gen::special;
use crate::gen::stream::{all_calls, Stream};
use crate::protocol::Request;
use crate::rng::Rng;
use crate::sim::call::number as op;
use crate::sim::model::{Counts, LIMIT, MAX_HEADS, MAX_PLAIN, MAX_PROCESSES};
use crate::sim::tables::decode;
use std::collections::BTreeMap;

/// The codes that a call can come to; the stream must show them all and no other.
fn codes(call: u32) -> &'static [u32] {
    match call {
        op::JUDGE | op::CURRENT | op::TIME => &[0, 1, 2],
        op::HOLD => &[0, 1, 2, 5],
        op::PASSIVATE => &[0, 1, 2, 4],
        op::FOLLOW..=op::INTO => &[0, 1, 2, 3, 10],
        op::WAIT => &[0, 1, 2, 3, 4, 10],
        op::CANCEL | op::FINISH => &[0, 1, 2, 3, 4],
        op::ACTIVATE => &[0, 1, 2, 3, 5],
        op::REACTIVATE => &[0, 1, 2, 3, 4, 5],
        op::ACCUM | op::ACCUM_IN_PLACE => &[0, 1, 2, 3, 7],
        op::ACCUM_ALONE | op::ACCUM_BY_VALUE => &[0, 1, 2, 7],
        op::FRESH_MODEL => &[0, 1],
        op::EVTIME => &[0, 1, 2, 3, 6],
        op::RUN | op::TURN => &[0, 1, 2, 3, 4, 5, 7, 8, 10, 200],
        op::CHECK => &[0, 8],
        op::FRESH => &[0, 1, 8],
        _ => &[0, 1, 2, 3],
    }
}

/// The columns of the histogram.
const COLUMNS: &[u32] = &[0, 1, 2, 3, 4, 5, 6, 7, 8, 10, 200];

/// What the calls program's buffers hold at least.
const SIZES: &[usize; 8] = &[8_448, 4_352, 1_088, 1_088, 80, 1_088, 56_000, 66_000];

/// How often direct calls come to the far ends of what a model can be.
#[derive(Default)]
struct Reach {
    all_counts_at_limit: u32,
    now_at_limit: u32,
    three_at_one_time: u32,
    main_idle: u32,
    left: Left,
    limit: Limit,
}

impl Reach {
    fn count(&mut self, tally: &mut Tally, request: &Request, code: u32) {
        self.limit.count(tally, request, code);
        let Ok(model) = decode(request.counts, &request.lent.tables) else { return };
        let largest = request.counts == Counts::new(MAX_HEADS, MAX_PROCESSES, MAX_PLAIN);
        let tie = model.notices.windows(3).any(|w| w[0].time == w[2].time);
        self.all_counts_at_limit += u32::from(largest);
        self.now_at_limit += u32::from(model.time() == LIMIT);
        self.three_at_one_time += u32::from(tie);
        self.main_idle += u32::from(model.notice_of(model.counts.main()).is_none());
        self.left.count(request, &model, code);
    }

    fn check(&self, tally: &mut Tally) {
        let rows = [
            ("all counts at their limits", self.all_counts_at_limit),
            ("time at its limit", self.now_at_limit),
            ("three notices at one time", self.three_at_one_time),
            ("main idle", self.main_idle),
        ];
        for (name, count) in rows {
            println!("{name}: {count}");
            tally.check(count > 0, &format!("never met: {name}"));
        }
        self.left.check(tally);
        self.limit.check(tally);
    }
}

type Histogram = BTreeMap<u32, BTreeMap<u32, u32>>;

pub fn check(tally: &mut Tally, seed: u64) {
    let mut stream = Stream::new(seed, &[]);
    let mut met = Histogram::new();
    let mut reach = Reach::default();
    for _ in 0..60_000 {
        let request = stream.next().request;
        let code = expected(&request).code;
        *met.entry(request.call.number).or_default().entry(code).or_default() += 1;
        tally.check(
            request.lengths().iter().zip(SIZES).all(|(length, size)| length <= size),
            "a request past the sizes",
        );
        reach.count(tally, &request, code);
    }
    print("call", &met);
    reach.check(tally);
    for call in all_calls() {
        let got: Vec<u32> = met.get(&call).map_or(Vec::new(), |row| row.keys().copied().collect());
        tally.check(got == codes(call), &format!("call {call} came to codes {got:?}, not {:?}", codes(call)));
    }
    run_lists(tally, seed);
}

/// The ends of the calls of run lists; a buffer too long is 1, and tables are never damaged.
fn run_lists(tally: &mut Tally, seed: u64) {
    let mut rng = Rng::new(seed);
    let mut met = Histogram::new();
    let mut lines = 0;
    let mut reached = Reached::default();
    let by_hand = special::all().len();
    for (number, mut list) in lists(&mut rng, 600, true).into_iter().enumerate() {
        let mut continued = false;
        while list.goes_on() {
            let response = expected(&list.next(&mut rng));
            list.go_on_from(&response.lent);
            lines += u64::from(response.lines);
            *met.entry(op::RUN).or_default().entry(response.code).or_default() += 1;
            if number >= by_hand {
                reached.follow(&mut list, &response, continued);
            }
            continued = true;
        }
    }
    print("runs", &met);
    println!("lines of all runs: {lines}");
    reached.check_each(tally);
    let got: Vec<u32> = met.values().flat_map(|row| row.keys().copied()).collect();
    tally.check(got == [0, 1, 3, 4, 5, 7, 10, 200], &format!("run lists came to codes {got:?}"));
}

fn print(name: &str, met: &Histogram) {
    let columns: Vec<String> = COLUMNS.iter().map(|c| format!("{c:>6}")).collect();
    println!("{name}{}", columns.join(""));
    for (call, row) in met {
        let cells: Vec<String> = COLUMNS.iter().map(|c| format!("{:>6}", row.get(c).unwrap_or(&0))).collect();
        println!("{call:>4}{}", cells.join(""));
    }
}
