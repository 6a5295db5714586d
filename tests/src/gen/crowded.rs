//! Sheets whose main fills a queue nearly or to its limit; then links leave it and enter it in every way.

use crate::rng::Rng;
use crate::sim::call::number as op;
use crate::sim::model::{Counts, MAX_MEMBERS};
use crate::sim::sheet::{Record, Sheet, CURRENT};

/// Any such sheet: as many links as go into one queue, a few less or a few more, and up to five processes.
pub fn any(rng: &mut Rng) -> Sheet {
    let full = MAX_MEMBERS as u32;
    let counts = Counts::new(rng.between(1, 3), rng.between(1, 5), full - 4 + rng.between(0, 14));
    let head = rng.between(1, counts.heads);
    let members = rng.between(full - 4, full + 2).min(full).min(counts.plain);
    let aside = head % counts.heads + 1;
    let spare = (counts.main()..=counts.process(counts.processes)).collect();
    let mut draft = Draft { rng, counts, head, aside, spare, records: Vec::new() };
    draft.fill(members);
    for p in 2..=counts.processes {
        draft.add(Record { clause: 2, t: i64::from(p % 3), ..record(op::ACTIVATE, counts.process(p), 0) });
    }
    let mut starts = vec![1];
    draft.body(true);
    for _ in 2..=counts.processes {
        starts.push(draft.size() + 1);
        draft.body(false);
    }
    Sheet { counts, starts, records: draft.records }
}

fn record(operation: u32, x: u32, y: u32) -> Record {
    Record { operation: operation as u8, x, y, ..Record::default() }
}

struct Draft<'a> {
    rng: &'a mut Rng,
    counts: Counts,
    head: u32,
    /// The next head, which is the same where there is but one.
    aside: u32,
    /// The links that main does not fill the queue with.
    spare: Vec<u32>,
    records: Vec<Record>,
}

impl Draft<'_> {
    fn size(&self) -> u32 {
        self.records.len() as u32
    }

    /// Adds a record that goes on to the next one.
    fn add(&mut self, record: Record) {
        let next = self.size() + 2;
        self.records.push(Record { next, ..record });
    }

    /// So many plain links, in any order.
    fn fill(&mut self, members: u32) {
        let mut links: Vec<u32> = (self.counts.process(self.counts.processes) + 1..=self.counts.total()).collect();
        self.rng.shuffle(&mut links);
        self.spare.extend(links.split_off(members as usize));
        links.into_iter().for_each(|link| self.add(record(op::INTO, link, self.head)));
    }

    /// Some rounds of the queue; then a hold, which ends the body or begins it again.
    fn body(&mut self, main: bool) {
        let first = self.size() + 1;
        for _ in 0..self.rng.between(2, 9) {
            match self.rng.below(100) {
                0..=29 => {
                    self.leave();
                    self.enter();
                }
                30..=33 => self.leave(),
                34..=69 => self.enter(),
                70..=84 => self.within(),
                85..=90 if !main => self.add(record(op::WAIT, 0, self.head)),
                85..=98 => self.hold(),
                _ => self.add(record(op::CLEAR, self.head, 0)),
            }
        }
        self.hold();
        let again = self.rng.chance(70);
        let last = self.records.len() - 1;
        self.records[last].next = if again { first } else { 0 };
    }

    fn hold(&mut self) {
        let t = self.rng.below(3) as i64;
        self.add(Record { t, ..record(op::HOLD, 0, 0) });
    }

    /// Any link; mostly one that main has not put into the queue.
    fn link(&mut self) -> u32 {
        match self.rng.below(10) {
            0 => CURRENT,
            1 => self.rng.between(self.counts.main(), self.counts.total()),
            _ => self.rng.pick(&self.spare),
        }
    }

    /// The next record is passed by where this head's queue is empty.
    fn unless_empty(&mut self, head: u32) {
        let y = self.size() + 3;
        self.add(Record { y, ..record(op::EMPTY, head, 0) });
    }

    /// The first member leaves: by out, beside itself, beside none or another, into the next queue.
    fn leave(&mut self) {
        let first = CURRENT + self.head;
        self.unless_empty(self.head);
        let leaving = match self.rng.below(8) {
            0 => record(op::FOLLOW, first, first),
            1 => record(op::INTO, first, 0),
            2 => record(op::PRECEDE, first, self.link()),
            3..=5 => record(op::INTO, first, self.aside),
            _ => record(op::OUT, first, 0),
        };
        self.add(leaving);
    }

    /// A link goes into the queue, from wherever it is, beside its head or a member.
    fn enter(&mut self) {
        let (first, other) = (CURRENT + self.head, self.link());
        let back = self.rng.chance(40);
        let (operation, y) = self.rng.pick(&[
            (op::INTO, self.head),
            (op::INTO, self.head),
            (op::FOLLOW, self.head),
            (op::PRECEDE, first),
            (op::FOLLOW, first),
            (op::PRECEDE, other),
        ]);
        if back {
            self.unless_empty(self.aside);
        }
        let x = if back { CURRENT + self.aside } else { self.link() };
        self.add(record(operation, x, y));
    }

    /// The first member moves within the queue.
    fn within(&mut self) {
        let first = CURRENT + self.head;
        self.unless_empty(self.head);
        let operation = self.rng.pick(&[op::INTO, op::PRECEDE, op::FOLLOW]);
        self.add(record(operation, first, self.head));
    }
}
