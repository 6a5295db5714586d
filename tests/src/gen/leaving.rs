//! Calls that take links from queues: queues of every length from none to the longest, links at their ends and in the middle,
//! moves within a queue, to another and to none.

use super::crowds::call;
use super::Case;
use crate::protocol::{Lent, Request};
use crate::rng::Rng;
use crate::sim::call::{number, Call};
use crate::sim::model::{Counts, Model, Notice, MAX_HEADS, MAX_MEMBERS, MAX_PLAIN, MAX_PROCESSES};
use crate::sim::tables::encode;

/// As many members as a set may have.
const LONGEST: u32 = MAX_MEMBERS as u32;

/// A model whose head `queue` has so many members, in an order that shows no pattern; the next link is in the set of
/// another head, if there is one, and those behind it are in none. The first member that is a process is current.
struct Queue {
    model: Model,
    queue: u32,
}

impl Queue {
    fn new(counts: Counts, queue: u32, length: u32) -> Queue {
        let mut model = Model::fresh(counts);
        let links: Vec<u32> = (counts.heads + 1..=counts.total()).collect();
        // every 7th from the front, then from the one behind, ..
        let members = (0..7).flat_map(|i| links[..length as usize].iter().skip(i).step_by(7).copied());
        model.sets[queue as usize - 1] = members.collect();
        if let Some(other) = other_than(counts, queue) {
            model.sets[other as usize - 1].extend(links.get(length as usize));
        }
        let current = model.members(queue).iter().copied().find(|&x| counts.is_process(x)).unwrap_or(counts.main());
        let late = Notice { process: counts.process(counts.processes), time: 9 };
        model.notices = vec![Notice { process: current, time: 5 }];
        model.notices.extend((late.process != current).then_some(late));
        Queue { model, queue }
    }

    /// The same with the links that are in no set spread over the other heads.
    fn crowded(mut self) -> Queue {
        let counts = self.model.counts;
        let others: Vec<u32> = (1..=counts.heads).filter(|&h| h != self.queue).collect();
        let apart: Vec<u32> = (counts.heads + 1..=counts.total()).filter(|&x| self.model.set_of(x).is_none()).collect();
        for (link, head) in apart.into_iter().zip(others.into_iter().cycle()) {
            self.model.sets[head as usize - 1].push(link);
        }
        self
    }

    fn case(&self, call: Call) -> Case {
        let lent = Lent { tables: encode(&self.model), ..Lent::default() };
        let request = Request { call, counts: self.model.counts, lent, sheet: Vec::new() };
        Case { request, note: "a queue that links leave" }
    }

    /// First, middle and last of the queue.
    fn some_members(&self) -> Vec<u32> {
        let set = self.model.members(self.queue);
        let places = [0, 1, set.len() / 2, set.len().wrapping_sub(2), set.len().wrapping_sub(1)];
        let mut members: Vec<u32> = places.iter().filter_map(|&at| set.get(at).copied()).collect();
        members.sort_unstable();
        members.dedup();
        members
    }

    /// Whom a link can be put beside: none, its own head and another, ends of its queue, links elsewhere and in no set.
    fn beside(&self) -> Vec<u32> {
        let counts = self.model.counts;
        let mut beside = vec![0, self.queue];
        if let Some(other) = other_than(counts, self.queue) {
            beside.push(other);
            beside.extend(self.model.members(other).first());
        }
        beside.extend((counts.heads + 1..=counts.total()).find(|&x| self.model.set_of(x).is_none()));
        beside.extend(self.some_members());
        beside
    }

    /// Every call on every one of those.
    fn calls(&self) -> Vec<Call> {
        let mut calls = self.short();
        for x in self.some_members() {
            calls.push(call(number::OUT, x, 0));
            for y in self.beside() {
                calls.extend([number::FOLLOW, number::PRECEDE, number::INTO].map(|number| call(number, x, y)));
            }
        }
        let heads = [0, self.queue].into_iter().chain(other_than(self.model.counts, self.queue));
        calls.extend(heads.map(|y| call(number::WAIT, 0, y)));
        calls
    }

    /// The queue cleared, and its first member out.
    fn short(&self) -> Vec<Call> {
        let first = self.model.first_of(self.queue);
        let out = (first != 0).then(|| call(number::OUT, first, 0));
        [call(number::CLEAR, self.queue, 0)].into_iter().chain(out).collect()
    }
}

fn other_than(counts: Counts, head: u32) -> Option<u32> {
    [1, counts.heads].into_iter().find(|&h| h != head && counts.is_head(h))
}

/// Every length shortly; some lengths with every call, on models with some links in sets and with all of them.
pub fn all() -> Vec<Case> {
    let mut cases = Vec::new();
    for length in 0..=LONGEST {
        let queue = Queue::new(Counts::new(2, 8, 513), 1 + length % 2, length);
        cases.extend(queue.short().into_iter().map(|call| queue.case(call)));
    }
    let some = [
        (Counts::new(1, 1, 0), 1, 0),
        (Counts::new(1, 1, 0), 1, 1),
        (Counts::new(1, 2, 1), 1, 2),
        (Counts::new(3, 2, 6), 2, 3),
        (Counts::new(2, 4, 20), 2, 23),
        (Counts::new(1, 3, 600), 1, LONGEST - 1),
        (Counts::new(1, 3, 600), 1, LONGEST),
        (Counts::new(2, 3, 600), 2, LONGEST),
        (Counts::new(MAX_HEADS, MAX_PROCESSES, MAX_PLAIN), MAX_HEADS, LONGEST),
    ];
    let crowded = [8, MAX_HEADS].map(|heads| (Counts::new(heads, MAX_PROCESSES, MAX_PLAIN), heads, LONGEST));
    let queues = some.map(|(counts, queue, length)| Queue::new(counts, queue, length)).into_iter();
    for queue in queues.chain(crowded.map(|(counts, queue, length)| Queue::new(counts, queue, length).crowded())) {
        cases.extend(queue.calls().into_iter().map(|call| queue.case(call)));
    }
    cases
}

/// Whether this is a call that takes links from queues.
pub fn has(number: u32) -> bool {
    matches!(number, number::OUT..=number::CLEAR | number::WAIT)
}

/// Such a call on a queue of any length.
pub fn any(rng: &mut Rng, number: u32) -> Case {
    let most = rng.pick(&[4, 30, 530, 530, 1_500]);
    let counts = Counts::new(rng.between(1, 3), rng.between(1, 9), rng.between(0, most));
    let queue = rng.between(1, counts.heads);
    let length = rng.between(1, (counts.total() - counts.heads).min(LONGEST));
    let queue = Queue::new(counts, queue, length);
    let mut calls = queue.calls();
    calls.retain(|call| call.number == number);
    queue.case(rng.pick(&calls))
}
