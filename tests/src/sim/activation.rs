//! Activate and reactivate with their clauses 0 to 6.

use super::model::{require, Model, Notice, Refusal};
use super::sequencing::time_of;
use crate::mutations::{on, M};

/// The whole of an activate or, with `again`, a reactivate.
#[derive(Clone, Copy, Debug)]
pub struct Activation {
    pub again: bool,
    pub clause: u32,
    pub x: u32,
    pub y: u32,
    pub t: i64,
}

impl Activation {
    /// Before Y or after Y.
    fn beside(self) -> bool {
        self.clause == 5 || self.clause == 6
    }

    /// At T or delay T, prior or not.
    fn timed(self) -> bool {
        (1..=4).contains(&self.clause)
    }
}

impl Model {
    /// Kinds first, then whether it has an effect, then the new notice, then the old one goes.
    pub fn activation(&mut self, a: Activation) -> Result<(), Refusal> {
        if on(M::EffectBeforeKind) && self.kind_of_x(a).is_ok() && self.without_effect(a) {
            return Ok(());
        }
        self.kinds(a)?;
        if on(M::LimitBeforeEffect) && a.timed() {
            self.new_time(a)?;
        }
        if self.without_effect(a) {
            return Ok(());
        }
        let new = self.new_notice(a)?;
        if new.is_none() && on(M::IdleYKeepsOld) {
            return Ok(());
        }
        let old = self.notice_of(a.x);
        require(new.is_some() || old.is_none() || self.notices.len() > 1, 4)?;
        self.replace(old, new);
        if a.again && on(M::ReactivatePassivates) && self.notices.len() > 1 {
            self.notices.remove(0);
        }
        Ok(())
    }

    fn kind_of_x(&self, a: Activation) -> Result<(), Refusal> {
        require(a.clause <= 6 || on(M::ClauseSevenDirect), 3)?;
        require(a.x == 0 || self.counts.is_process(a.x), 3)
    }

    /// The clause, x, and y where the clause uses it: a process or none.
    fn kinds(&self, a: Activation) -> Result<(), Refusal> {
        self.kind_of_x(a)?;
        let y_used = a.beside() || on(M::UnusedYJudged);
        require(!y_used || a.y == 0 || self.counts.is_process(a.y), 3)
    }

    /// X is none or terminated, activate finds X not idle, or X = Y and has a notice.
    fn without_effect(&self, a: Activation) -> bool {
        if a.x == 0 || (self.is_terminated(a.x) && !on(M::TerminatedActs)) {
            return true;
        }
        let live = self.notice_of(a.x).is_some();
        let itself = a.beside() && a.x == a.y && live;
        if itself && a.again && on(M::SelfBesideDrops) {
            return false;
        }
        itself || (!a.again && live && !on(M::ActivateLiveActs))
    }

    /// The time of clauses 0 to 4: at T or delay T, at least the present time.
    fn new_time(&self, a: Activation) -> Result<u64, Refusal> {
        let now = i128::from(self.present(a));
        let t = i128::from(a.t);
        let u = match a.clause {
            1 | 3 => t,
            2 | 4 if on(M::DelayIsAt) => t,
            2 | 4 => now + t,
            _ => now,
        };
        time_of(if on(M::PastNotRaised) { u } else { u.max(now) })
    }

    /// The present time; misread, it is the one after the old notice is dropped.
    fn present(&self, a: Activation) -> u64 {
        let dropped = on(M::DropBeforeTime) && a.again && self.current() == a.x;
        self.notices.get(usize::from(dropped)).map_or(self.time(), |n| n.time)
    }

    /// The new notice and its place, found while the old one still stands; none beside an idle or absent Y.
    fn new_notice(&self, a: Activation) -> Result<Option<(usize, Notice)>, Refusal> {
        if a.beside() {
            return Ok(self.notice_beside(a));
        }
        let time = self.new_time(a)?;
        let at = match a.clause {
            1 | 2 if on(M::AtBehindAll) => self.notices.len(),
            1 | 2 if on(M::AtBeforeEquals) => self.before_equals(time),
            1 | 2 => self.behind_equals(time),
            3 | 4 if on(M::PriorBeforeAll) => 0,
            3 | 4 if on(M::PriorNowBehind) && time == self.time() => self.behind_equals(time),
            0 if on(M::DirectSecond) => 1,
            _ => self.before_equals(time),
        };
        Ok(Some((at, Notice { process: a.x, time })))
    }

    /// Right before or after Y's notice, with Y's time.
    fn notice_beside(&self, a: Activation) -> Option<(usize, Notice)> {
        let y = if a.x == a.y { None } else { self.notice_of(a.y) }?;
        let time = self.notices[y].time;
        let at = match a.clause {
            5 if on(M::BeforeBeforeEquals) => self.before_equals(time),
            5 => y,
            _ if on(M::AfterBehindEquals) => self.behind_equals(time),
            _ => y + 1,
        };
        Some((at, Notice { process: a.x, time }))
    }

    /// Puts in the new notice, then deletes the earlier one of the same process.
    fn replace(&mut self, old: Option<usize>, new: Option<(usize, Notice)>) {
        let mut old = old;
        if let Some((at, notice)) = new {
            self.notices.insert(at, notice);
            old = old.map(|o| if o >= at { o + 1 } else { o });
        }
        if let Some(o) = old {
            self.notices.remove(o);
        }
    }
}
