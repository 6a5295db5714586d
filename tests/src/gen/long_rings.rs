//! Tables whose rings are longer than a set may be, lent to every call; and the longest that a set may be.

use super::crowds::call;
use super::damage::{changed, Damaged};
use super::{runs, Case};
use crate::expected::known;
use crate::protocol::{Lent, Request};
use crate::rng::Rng;
use crate::sim::accum::{Accum, MOST};
use crate::sim::call::{number, Call};
use crate::sim::model::{Counts, Model, Notice, MAX_HEADS, MAX_MEMBERS, MAX_PLAIN, MAX_PROCESSES};
use crate::sim::run::{Run, LINE, MAX_TRACE};
use crate::sim::sheet::{Record, Sheet};
use crate::sim::tables::encode;

/// One set of any model gets more members than it may have. Where there are too few links, the model gets more.
pub fn lengthened(rng: &mut Rng, mut model: Model) -> Option<Damaged> {
    let heads = model.sets.len();
    let s = (heads > 0).then(|| rng.index(heads))?;
    let links = model.counts.total() - model.counts.heads;
    model.counts.plain += (MAX_MEMBERS as u32 + 1 + rng.between(0, 3)).saturating_sub(links);
    let counts = model.counts;
    let all = (counts.total() - counts.heads) as usize;
    let length = rng.pick(&[MAX_MEMBERS + 1, MAX_MEMBERS + 1, MAX_MEMBERS + 2, all]).min(all);
    let mut ring = std::mem::take(&mut model.sets[s]);
    let mut inside = vec![false; counts.total() as usize + 1];
    ring.iter().for_each(|&x| inside[x as usize] = true);
    let others = (counts.heads + 1..=counts.total()).filter(|&x| !inside[x as usize]);
    let entered: Vec<u32> = others.take(length - ring.len()).collect();
    entered.iter().for_each(|&x| inside[x as usize] = true);
    model.sets.iter_mut().for_each(|set| set.retain(|&x| !inside[x as usize]));
    ring.extend(entered);
    model.sets[s] = ring;
    changed(model, |_| {})
}

/// A model whose head has so many members, the last processes and behind them the last plain links. The last process is current, and the
/// one before it comes next.
fn ringed(counts: Counts, head: u32, length: usize) -> Model {
    let mut model = Model::fresh(counts);
    let last = counts.process(counts.processes);
    let processes = (counts.main()..=last).rev().take(length / 2); // half of the members at most
    let plain = (last + 1..=counts.total()).rev();
    model.sets[head as usize - 1] = processes.chain(plain).take(length).collect();
    model.notices = vec![Notice { process: last, time: 5 }, Notice { process: last - 1, time: 9 }];
    model
}

/// A call that a set of 512 does not refuse: its last member moves within it, and current waits in it once more.
fn on_ring(number: u32, model: &Model, head: u32) -> Call {
    let member = model.members(head).last().copied().unwrap_or(0);
    match number {
        number::OUT..=number::INTO => call(number, member, head),
        number::CLEAR | number::EMPTY | number::FIRST | number::LAST | number::CARDINAL => call(number, head, 0),
        number::SUC | number::PRED => call(number, member, 0),
        number::WAIT => call(number, 0, head),
        number::ACCUM | number::ACCUM_IN_PLACE => call(number, 1, 0),
        _ => call(number, model.notices[0].process, 0),
    }
}

/// The request of any call on this model; a run has a sheet of one hold.
fn request(number: u32, model: &Model, head: u32) -> Request {
    let counts = model.counts;
    let call = on_ring(number, model, head);
    if matches!(number, number::RUN | number::TURN | number::FRESH | number::CHECK) {
        let hold = Record { next: 1, operation: number::HOLD as u8, t: 1, ..Record::default() };
        let starts = vec![1; counts.processes as usize];
        let sheet = Sheet { counts, starts: starts.clone(), records: vec![hold] };
        let run = Run { model: model.clone(), positions: starts, accums: vec![Accum::default(); MOST] };
        let lent = Lent { trace: vec![0xA5; LINE], ..runs::lent(&run) };
        return Request { call, counts, lent, sheet: sheet.encode() };
    }
    let lent = Lent { tables: encode(model), accums: vec![Accum::default()], ..Lent::default() };
    Request { call, counts, lent, sheet: Vec::new() }
}

/// What stands before a ring that is too long: a sheet that is none, a table, a list or a trace of another length. And what stands
/// behind it: an operand that will not do.
fn with_others(model: &Model, head: u32) -> Vec<Request> {
    let run = request(number::RUN, model, head);
    let (mut no_sheet, mut long_trace, mut short_positions) = (run.clone(), run.clone(), run);
    no_sheet.sheet.pop();
    long_trace.lent.trace.resize(MAX_TRACE + 1, 0);
    short_positions.lent.positions.pop();
    let mut long_marks = request(number::CARDINAL, model, head);
    long_marks.lent.tables.marks.push(0);
    let mut no_accums = request(number::ACCUM, model, head);
    no_accums.lent.accums.clear();
    let mut no_operand = request(number::OUT, model, head);
    no_operand.call.x = 0;
    vec![no_sheet, long_trace, short_positions, long_marks, no_accums, no_operand]
}

/// Every call on a ring of 512 and on longer ones, of the first head and of the last; on some more, one call of each kind.
pub fn all() -> Vec<Case> {
    let few = Counts::new(3, 4, 600);
    let most = |heads: u32| Counts::new(heads, MAX_PROCESSES, MAX_PLAIN);
    let links = (MAX_PROCESSES + MAX_PLAIN) as usize;
    let mut cases = Vec::new();
    let mut add = |request: Request, note: &'static str| cases.push(Case { request, note });
    for (counts, head, length, every, note) in [
        (few, 1, MAX_MEMBERS, true, "a ring of 512"),
        (most(MAX_HEADS), MAX_HEADS, MAX_MEMBERS, false, "a ring of 512"),
        (few, 1, MAX_MEMBERS + 1, true, "a ring of 513"),
        (few, 2, MAX_MEMBERS + 1, false, "a ring of 513"),
        (few, 3, MAX_MEMBERS + 1, true, "a ring of 513"),
        (Counts::new(1, 2, 511), 1, MAX_MEMBERS + 1, false, "a ring of 513"),
        (few, 3, MAX_MEMBERS + 2, true, "a ring of 514"),
        (most(1), 1, links, false, "a ring of 4,032"),
        (most(MAX_HEADS), MAX_HEADS, links, true, "a ring of 4,032"),
    ] {
        let model = ringed(counts, head, length);
        let some = [number::JUDGE, number::INTO, number::HOLD, number::CARDINAL, number::RUN];
        let calls = (0..=number::TURN).filter(|call| known(*call) && (every || some.contains(call)));
        calls.for_each(|call| add(request(call, &model, head), note));
        let others = if every { with_others(&model, head) } else { Vec::new() };
        others.into_iter().for_each(|request| add(request, note));
    }
    cases
}
