//! A run followed step by step on plain lists, so that a refused step can be told in words. The engine decides; this finds the words.

use crate::operations::{row_of, Wants};
use crate::schedule::Schedule;
use crate::sheet::{Kind, Record, Sheet, CURRENT, MAX_ACCUMULATORS, MAX_MEMBERS, MOST_RATE};

pub struct Replay<'a> {
    pub sheet: &'a Sheet,
    /// The members of head h, at h.
    queues: Vec<Vec<u32>>,
    /// The head of the queue that each linkage stands in, 0 for none.
    homes: Vec<u32>,
    schedule: Schedule,
    /// By linkage: whether it has ended, and its record.
    ended: Vec<bool>,
    positions: Vec<u32>,
    /// The rate of accumulator n, at n.
    rates: Vec<i64>,
}

/// A refusal's number.
pub type Refusal = u8;

impl Replay<'_> {
    pub fn new(sheet: &Sheet) -> Replay<'_> {
        let places = sheet.counts.total() as usize + 1;
        let mut positions = vec![0; places];
        positions[sheet.counts.main() as usize..][..sheet.starts.len()].copy_from_slice(&sheet.starts);
        Replay {
            sheet,
            queues: vec![Vec::new(); sheet.counts.heads as usize + 1],
            homes: vec![0; places],
            schedule: Schedule::new(sheet.counts.main()),
            ended: vec![false; places],
            positions,
            rates: vec![0; MAX_ACCUMULATORS as usize + 1],
        }
    }

    pub fn current(&self) -> u32 {
        self.schedule.first().process
    }

    pub fn time(&self) -> u64 {
        self.schedule.first().time
    }

    /// The record of current, 0 at its end.
    pub fn record(&self) -> u32 {
        self.positions[self.current() as usize]
    }

    /// The head of the queue that a link stands in, 0 for none.
    pub fn home(&self, link: u32) -> u32 {
        self.homes[link as usize]
    }

    pub fn has_ended(&self, process: u32) -> bool {
        self.ended[process as usize]
    }

    pub fn rate(&self, accumulator: u32) -> i64 {
        self.rates[accumulator as usize]
    }

    /// The linkage that an operand stands for now, 0 for none, at a place that asks for this.
    pub fn resolved(&self, operand: u32, wants: Wants) -> u32 {
        match operand.checked_sub(CURRENT) {
            Some(0) => self.current(),
            Some(head) => self.first(head, wants),
            None => operand,
        }
    }

    /// The first member of a queue, or the first that is a process where one is asked for.
    fn first(&self, head: u32, wants: Wants) -> u32 {
        let process = |link: u32| self.sheet.counts.kind(link) == Kind::Process;
        let meant = |link: &&u32| wants != Wants::ProcessOrNone || process(**link);
        self.queues[head as usize].iter().find(meant).copied().unwrap_or(0)
    }

    /// One step; where it is refused nothing changes.
    pub fn step(&mut self) -> Result<(), Refusal> {
        let (process, number) = (self.current(), self.record());
        let sheet = self.sheet;
        let next = match number {
            0 => self.finish().map(|()| 0)?,
            _ => self.perform(sheet.record(number))?,
        };
        self.positions[process as usize] = next;
        Ok(())
    }

    /// The call of a record; the answer is where its process goes on.
    fn perform(&mut self, record: &Record) -> Result<u32, Refusal> {
        let row = row_of(record.operation, record.clause, record.y == 0).ok_or(3)?;
        let resolved = |value: u32, wants: Option<Wants>| wants.map_or(0, |w| self.resolved(value, w));
        let (x, y) = (resolved(record.x, row.wants_x()), resolved(record.y, row.wants_y()));
        let fits = |number: u32, wants: Option<_>| wants.is_none_or(|w| self.sheet.counts.kind(number).will_do(w));
        if !fits(x, row.wants_x()) || !fits(y, row.wants_y()) {
            return Err(3);
        }
        match record.operation {
            1 => self.out(x),
            2 | 3 => self.beside(x, y, record.operation == 2)?,
            4 => self.into(x, y)?,
            5 => self.clear(x),
            6 => self.schedule.hold(record.t)?,
            7 => self.schedule.cancel(self.current())?,
            8 => self.wait(y)?,
            9 => self.schedule.cancel(x)?,
            10 | 11 => self.activate(record, x, y)?,
            12 if self.queues[x as usize].is_empty() => return Ok(record.y),
            13 => self.accum(record.x, record.t)?,
            _ => {}
        }
        Ok(record.next)
    }

    fn finish(&mut self) -> Result<(), Refusal> {
        let process = self.current();
        self.schedule.cancel(process)?;
        self.ended[process as usize] = true;
        Ok(())
    }

    fn out(&mut self, x: u32) {
        let home = std::mem::take(&mut self.homes[x as usize]);
        self.queues[home as usize].retain(|link| *link != x);
    }

    fn put(&mut self, x: u32, head: u32, at: usize) {
        self.queues[head as usize].insert(at, x);
        self.homes[x as usize] = head;
    }

    /// The head of the queue that x comes into beside y, 0 for none.
    pub fn entered(&self, x: u32, y: u32) -> u32 {
        match self.sheet.counts.kind(y) {
            Kind::Head => y,
            _ if x == y => 0,
            _ => self.home(y),
        }
    }

    /// The queue beside y takes one more, or has x in it already.
    fn room(&self, x: u32, y: u32) -> Result<(), Refusal> {
        let head = self.entered(x, y);
        if head != self.home(x) && self.queues[head as usize].len() >= MAX_MEMBERS {
            return Err(10);
        }
        Ok(())
    }

    fn into(&mut self, x: u32, head: u32) -> Result<(), Refusal> {
        self.room(x, head)?;
        self.out(x);
        if head != 0 {
            self.put(x, head, self.queues[head as usize].len());
        }
        Ok(())
    }

    /// Right behind y, or right in front of it: a head stands before its first member and behind its last.
    fn beside(&mut self, x: u32, y: u32, behind: bool) -> Result<(), Refusal> {
        self.room(x, y)?;
        let head = self.entered(x, y);
        self.out(x);
        if head != 0 {
            let queue = &self.queues[head as usize];
            let at = match queue.iter().position(|link| *link == y) {
                Some(at) => at + usize::from(behind),
                None if behind => 0,
                None => queue.len(),
            };
            self.put(x, head, at);
        }
        Ok(())
    }

    fn clear(&mut self, head: u32) {
        for link in std::mem::take(&mut self.queues[head as usize]) {
            self.homes[link as usize] = 0;
        }
    }

    fn wait(&mut self, head: u32) -> Result<(), Refusal> {
        let process = self.current();
        self.room(process, head)?;
        self.schedule.cancel(process)?;
        self.into(process, head)
    }

    /// Activate, and reactivate; without effect on none and on a process at its end.
    fn activate(&mut self, record: &Record, x: u32, y: u32) -> Result<(), Refusal> {
        if x == 0 || self.has_ended(x) {
            return Ok(());
        }
        self.schedule.activate(x, record, y)
    }

    fn accum(&mut self, number: u32, by: i64) -> Result<(), Refusal> {
        let rate = self.rate(number).checked_add(by).ok_or(7)?;
        if !(-MOST_RATE..=MOST_RATE).contains(&rate) {
            return Err(7);
        }
        self.rates[number as usize] = rate;
        Ok(())
    }
}
