//! Sheets whose queues hold links and processes together: main fills one by into, then all name its members by 65,536 + h.

use crate::rng::Rng;
use crate::sim::call::number as op;
use crate::sim::model::{Counts, MAX_HEADS};
use crate::sim::sheet::{Record, Sheet, CURRENT};

/// How many steps of main fill a queue before anything else is done.
pub fn filling(sheet: &Sheet) -> usize {
    let (mut at, mut steps) = (sheet.starts[0], 0);
    while at != 0 && steps < sheet.records.len() && u32::from(sheet.record(at).operation) == op::INTO {
        at = sheet.record(at).next;
        steps += 1;
    }
    steps
}

/// Any queue: main fills it, wakes others and makes calls on it, as they do then. Mostly one more wakes main at each tick.
pub fn any(rng: &mut Rng) -> Sheet {
    let counts = counts(rng);
    let head = if rng.chance(70) { counts.heads } else { rng.between(1, counts.heads) };
    let wakes = counts.processes > 2 && rng.chance(75);
    let mut draft = Draft { rng, counts, head, records: Vec::new() };
    let mut starts = vec![1];
    draft.fill();
    draft.begin(wakes);
    draft.sequencing();
    draft.sequencing();
    draft.body(6, 14);
    for p in 2..=counts.processes {
        starts.push(draft.size() + 1);
        if wakes && p == counts.processes {
            draft.waker();
        } else if draft.rng.chance(15) {
            starts[p as usize - 1] = 0;
        } else {
            draft.body(2, 6);
        }
    }
    Sheet { counts, starts, records: draft.records }
}

/// Few links mostly, now and then hundreds, or the most heads, of which the last is 65,600.
fn counts(rng: &mut Rng) -> Counts {
    match rng.below(10) {
        0 | 1 => Counts::new(MAX_HEADS, rng.between(2, 5), rng.between(0, 4)),
        2 | 3 => Counts::new(rng.between(1, 2), rng.between(2, 5), rng.between(100, 400)),
        _ => Counts::new(rng.between(1, 3), rng.between(2, 7), rng.between(0, 5)),
    }
}

struct Draft<'a> {
    rng: &'a mut Rng,
    counts: Counts,
    head: u32,
    records: Vec<Record>,
}

impl Draft<'_> {
    fn size(&self) -> u32 {
        self.records.len() as u32
    }

    /// The operand that names a member of the queue.
    fn first(&self) -> u32 {
        CURRENT + self.head
    }

    /// Adds a record that goes on to the next one.
    fn add(&mut self, operation: u32, clause: u8, x: u32, y: u32, t: i64) {
        let next = self.size() + 2;
        self.records.push(Record { next, operation: operation as u8, clause, x, y, t, ..Record::default() });
    }

    /// Who stands in the queue, in order: nobody, links, processes, or both.
    fn queue(&mut self) -> Vec<u32> {
        let c = self.counts;
        let last = c.process(c.processes);
        let mut links: Vec<u32> = (last + 1..=c.total()).collect();
        let mut processes: Vec<u32> = (c.main()..=last).filter(|_| self.rng.chance(60)).collect();
        self.rng.shuffle(&mut links);
        self.rng.shuffle(&mut processes);
        match self.rng.below(10) {
            0 => Vec::new(),
            1 => links,
            2 => processes,
            3 => [processes, links].concat(),
            4..=6 => [links, processes].concat(),
            _ => {
                let mut all = [links, processes].concat();
                self.rng.shuffle(&mut all);
                all
            }
        }
    }

    fn fill(&mut self) {
        for member in self.queue() {
            self.add(op::INTO, 0, member, self.head, 0);
        }
    }

    /// Main activates some of the others, and the one that wakes it.
    fn begin(&mut self, wakes: bool) {
        let c = self.counts;
        for p in 2..=c.processes {
            let t = self.rng.below(4) as i64;
            if (wakes && p == c.processes) || self.rng.chance(50) {
                self.add(op::ACTIVATE, 2, c.process(p), 0, t);
            }
        }
    }

    /// Wakes a process of the queue and main at each tick.
    fn waker(&mut self) {
        let first = self.size() + 1;
        self.add(op::HOLD, 0, 0, 0, 1);
        self.add(op::ACTIVATE, 0, self.first(), 0, 0);
        self.add(op::ACTIVATE, 0, self.counts.main(), 0, 0);
        self.records[first as usize + 1].next = first;
    }

    /// So many records or about as many; then a hold, which ends the body or begins it again.
    fn body(&mut self, low: u32, high: u32) {
        let first = self.size() + 1;
        for _ in 0..self.rng.between(low, high) {
            match self.rng.below(100) {
                0..=54 => self.sequencing(),
                55..=69 => self.moving(),
                70..=81 => self.entering(),
                82..=96 => {
                    let t = self.rng.below(3) as i64;
                    self.add(op::HOLD, 0, 0, 0, t);
                }
                _ => self.wrong(),
            }
        }
        self.add(op::HOLD, 0, 0, 0, 1);
        let again = self.rng.chance(55);
        let last = self.records.len() - 1;
        self.records[last].next = if again { first } else { 0 };
    }

    /// A process named otherwise: current, by its number, or by another queue.
    fn process(&mut self) -> u32 {
        let c = self.counts;
        match self.rng.below(10) {
            0..=2 => CURRENT,
            3 => CURRENT + self.rng.between(1, c.heads),
            _ => self.rng.between(c.main(), c.process(c.processes)),
        }
    }

    /// Cancel, activate and reactivate, with a member of the queue as x, as y, or as both.
    fn sequencing(&mut self) {
        let (operation, first) =
            (self.rng.pick(&[op::CANCEL, op::ACTIVATE, op::ACTIVATE, op::REACTIVATE]), self.first());
        let clause = if operation == op::CANCEL { 0 } else { self.rng.between(0, 6) as u8 };
        let (x, y) = match self.rng.below(5) {
            _ if clause < 5 => (first, 0),
            0 | 1 => (first, self.process()),
            2 | 3 => (self.process(), first),
            _ => (first, first),
        };
        let t = match clause {
            1 | 3 => self.rng.below(30) as i64,
            2 | 4 => self.rng.below(4) as i64,
            _ => 0,
        };
        self.add(operation, clause, x, y, t);
    }

    /// Out, follow, precede and into with the first member; mostly passed over where there is none.
    fn moving(&mut self) {
        if self.rng.chance(90) {
            self.add(op::EMPTY, 0, self.head, self.size() + 3, 0);
        }
        let (first, other, head) = (self.first(), self.process(), self.rng.between(1, self.counts.heads));
        match self.rng.below(5) {
            0 => self.add(op::OUT, 0, first, 0, 0),
            1 => self.add(op::INTO, 0, first, head, 0),
            _ => {
                let operation = self.rng.pick(&[op::FOLLOW, op::PRECEDE]);
                let (x, y) = self.rng.pick(&[(first, other), (other, first), (first, first), (first, head)]);
                self.add(operation, 0, x, y, 0);
            }
        }
    }

    /// More members for the queue.
    fn entering(&mut self) {
        let link = self.rng.between(self.counts.main(), self.counts.total());
        match self.rng.below(4) {
            0 => self.add(op::WAIT, 0, 0, self.head, 0),
            1 => self.add(op::INTO, 0, CURRENT, self.head, 0),
            _ => self.add(op::INTO, 0, link, self.head, 0),
        }
    }

    /// Where a head is asked for, which a first member never is.
    fn wrong(&mut self) {
        let (first, current) = (self.first(), CURRENT);
        match self.rng.below(4) {
            0 => self.add(op::CLEAR, 0, first, 0, 0),
            1 => self.add(op::WAIT, 0, 0, first, 0),
            2 => self.add(op::INTO, 0, current, first, 0),
            _ => self.add(op::EMPTY, 0, first, 0, 0),
        }
    }
}
