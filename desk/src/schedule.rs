//! The scheduled processes in the order in which they go on: the time axis as a plain list.

use crate::replay::Refusal;
use crate::sheet::{Record, LATEST};
use std::collections::VecDeque;

/// When a process goes on.
#[derive(Clone, Copy)]
pub struct Notice {
    pub process: u32,
    pub time: u64,
}

/// At least one notice, times never falling.
pub struct Schedule {
    notices: VecDeque<Notice>,
}

impl Schedule {
    /// Main at 0.
    pub fn new(main: u32) -> Schedule {
        Schedule { notices: VecDeque::from([Notice { process: main, time: 0 }]) }
    }

    /// That of current; its time is the present time.
    pub fn first(&self) -> Notice {
        self.notices[0]
    }

    fn place_of(&self, process: u32) -> Option<usize> {
        self.notices.iter().position(|notice| notice.process == process)
    }

    /// Current goes on later, behind all of equal or smaller time.
    pub fn hold(&mut self, ticks: i64) -> Result<(), Refusal> {
        let Notice { process, time } = self.first();
        let time = within(i128::from(time) + i128::from(ticks.max(0)))?;
        self.notices.pop_front();
        let at = self.notices.partition_point(|notice| notice.time <= time);
        self.notices.insert(at, Notice { process, time });
        Ok(())
    }

    /// Takes a process out, if it is there and not alone there.
    pub fn cancel(&mut self, process: u32) -> Result<(), Refusal> {
        let Some(at) = self.place_of(process) else { return Ok(()) };
        if self.notices.len() == 1 {
            return Err(4);
        }
        self.notices.remove(at);
        Ok(())
    }

    /// Activate, and reactivate, which drops the old notice after the new one has its place.
    pub fn activate(&mut self, x: u32, record: &Record, y: u32) -> Result<(), Refusal> {
        let (again, beside, old) = (record.operation == 11, matches!(record.clause, 5 | 6), self.place_of(x));
        if old.is_some() && (!again || beside && x == y) {
            return Ok(());
        }
        let Some((at, time)) = self.new_place(record, y)? else { return self.cancel(x) };
        self.notices.insert(at, Notice { process: x, time });
        if let Some(old) = old {
            self.notices.remove(old + usize::from(at <= old));
        }
        Ok(())
    }

    /// Where a new notice goes, and its time; nowhere beside a process that is idle.
    fn new_place(&self, record: &Record, y: u32) -> Result<Option<(usize, u64)>, Refusal> {
        let now = i128::from(self.first().time);
        let time = match record.clause {
            1 | 3 => i128::from(record.t),
            2 | 4 => now + i128::from(record.t),
            5 | 6 => {
                let behind = usize::from(record.clause == 6);
                return Ok(self.place_of(y).map(|at| (at + behind, self.notices[at].time)));
            }
            _ => now,
        };
        let time = within(time.max(now))?;
        let behind = matches!(record.clause, 1 | 2);
        let at = self.notices.partition_point(|notice| notice.time < time || behind && notice.time == time);
        Ok(Some((at, time)))
    }
}

/// A time, if it is not above the latest.
fn within(time: i128) -> Result<u64, Refusal> {
    u64::try_from(time).ok().filter(|time| *time <= LATEST).ok_or(5)
}
