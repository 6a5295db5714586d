//! The time axis of SIMULATION on a list of notices: hold, passivate, wait, cancel, finish, queries.

use super::call::number;
use super::model::{require, Model, Notice, Refusal, LIMIT};
use super::sets::Side;
use crate::mutations::{on, M};

/// A sum of ticks as a time; above the limit it is refused with 5.
pub fn time_of(ticks: i128) -> Result<u64, Refusal> {
    let limit = i128::from(LIMIT) - i128::from(on(M::LimitExcluded));
    require(ticks <= limit, 5)?;
    Ok(ticks.max(0) as u64)
}

impl Model {
    /// The place behind all notices of a time up to u.
    pub fn behind_equals(&self, u: u64) -> usize {
        self.notices.iter().position(|n| n.time > u).unwrap_or(self.notices.len())
    }

    /// The place in front of all notices of a time from u on.
    pub fn before_equals(&self, u: u64) -> usize {
        self.notices.iter().position(|n| n.time >= u).unwrap_or(self.notices.len())
    }

    /// Takes out the first notice and puts it back behind all of equal or smaller time.
    pub fn hold(&mut self, t: i64) -> Result<(), Refusal> {
        let backwards = on(M::HoldBackwards) && t < 0;
        let added = if t > 0 || backwards { i128::from(t) } else { 0 };
        let time = time_of(i128::from(self.time()) + added)?;
        if on(M::HoldZeroStays) && t <= 0 {
            return Ok(());
        }
        let notice = Notice { time, ..self.notices.remove(0) };
        let early = on(M::HoldBeforeEquals);
        let at = if early { self.before_equals(time) } else { self.behind_equals(time) };
        self.notices.insert(at, notice);
        Ok(())
    }

    pub fn passivate(&mut self) -> Result<(), Refusal> {
        require(self.notices.len() > 1, 4)?;
        self.notices.remove(0);
        Ok(())
    }

    /// Into the set by current, then passivate; on none it is out, then passivate. Answers the head that current left.
    /// A full set is told before a last notice, 10 ahead of 4.
    pub fn wait(&mut self, y: u32) -> Result<u32, Refusal> {
        self.judge_members_early(number::WAIT, self.current(), y)?;
        self.head_or_none(y)?;
        require(y != 0 || !on(M::WaitNoneRefused), 3)?;
        require(self.notices.len() > 1 || !on(M::FourBeforeTen), 4)?;
        let judged = self.judge_members(number::WAIT, self.current(), y);
        if judged.is_err() && on(M::FullWaitPassivates) {
            return self.passivate().map(|()| 0);
        }
        judged?;
        require(self.notices.len() > 1 || on(M::WaitRefusedEnters), 4)?;
        let left = self.put(self.current(), y, Side::InFront);
        self.passivate()?;
        Ok(match left {
            _ if on(M::WaitTellsNothing) => 0,
            _ if on(M::WaitTellsNext) => self.head_of(self.current()),
            _ => left,
        })
    }

    pub fn cancel(&mut self, x: u32) -> Result<(), Refusal> {
        require(x != 0 || !on(M::CancelNoneRefused), 3)?;
        require(x == 0 || self.counts.is_process(x), 3)?;
        if let Some(at) = self.notice_of(x) {
            require(self.notices.len() > 1 || on(M::CancelLastAllowed), 4)?;
            self.notices.remove(at);
        }
        Ok(())
    }

    /// Marks current terminated and passivates it; main can't finish by call.
    pub fn finish(&mut self) -> Result<(), Refusal> {
        let current = self.current();
        require(current != self.counts.main() || on(M::FinishMainAllowed), 3)?;
        self.passivate()?;
        let place = self.counts.place(current) as usize;
        self.terminated[place - 1] = !on(M::FinishUnmarked);
        Ok(())
    }

    pub fn idle(&self, x: u32) -> Result<bool, Refusal> {
        require(self.counts.is_process(x), 3)?;
        Ok(self.notice_of(x).is_none())
    }

    pub fn terminated(&self, x: u32) -> Result<bool, Refusal> {
        require(self.counts.is_process(x), 3)?;
        Ok(self.is_terminated(x))
    }

    pub fn evtime(&self, x: u32) -> Result<u64, Refusal> {
        require(self.counts.is_process(x), 3)?;
        match self.notice_of(x) {
            Some(at) => Ok(self.notices[at].time),
            None if on(M::EvtimeIdleZero) => Ok(0),
            None => Err(6),
        }
    }

    /// The process of the notice behind x's; none if x is idle or last.
    pub fn nextev(&self, x: u32) -> Result<u32, Refusal> {
        require(self.counts.is_process(x), 3)?;
        let at = self.notice_of(x);
        require(at.is_some() || !on(M::NextevIdleRefused), 6)?;
        Ok(at.and_then(|i| self.notices.get(i + 1)).map_or(0, |n| n.process))
    }
}
