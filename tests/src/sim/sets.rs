//! The sets of SIMSET on lists: out, follow, precede, into, clear and their queries.

use super::call::number;
use super::model::{require, Model, Refusal};
use crate::mutations::{on, M};

/// On which side of the named linkage a link is put.
#[derive(Clone, Copy, PartialEq, Eq)]
pub enum Side {
    Behind,
    InFront,
}

impl Model {
    /// Takes the link from its list, if it is in one.
    pub fn unlink(&mut self, x: u32) {
        for set in &mut self.sets {
            set.retain(|&member| member != x);
        }
    }

    /// Puts an unlinked link beside y: in a head's list first or last, beside a linked link next to it.
    fn insert_beside(&mut self, x: u32, y: u32, side: Side) {
        if self.counts.is_head(y) {
            let set = &mut self.sets[y as usize - 1];
            let first = (side == Side::Behind) != on(M::HeadEndsSwapped);
            set.insert(if first { 0 } else { set.len() }, x);
        } else if let Some(s) = self.set_of(y) {
            let at = self.sets[s].iter().position(|&m| m == y).unwrap_or(0);
            self.sets[s].insert(at + usize::from(side == Side::Behind), x);
        }
    }

    /// Out first, then beside y if y is a head or is then linked.
    pub fn move_beside(&mut self, x: u32, y: u32, side: Side) {
        let unlinked = self.counts.is_link(y) && self.set_of(y).is_none();
        if (unlinked && on(M::FollowUnlinkedStays)) || (x == y && on(M::FollowSelfStays)) {
            return;
        }
        self.unlink(x);
        self.insert_beside(x, y, side);
    }

    /// Answers the head of the set that the link left, 0 if it was in none.
    pub fn out(&mut self, x: u32) -> Result<u32, Refusal> {
        require(self.counts.is_link(x), 3)?;
        require(!on(M::OutUnlinkedRefused) || self.set_of(x).is_some(), 3)?;
        let left = self.head_of(x);
        self.unlink(x);
        Ok(self.told(left, x, None))
    }

    /// Follow and precede; none for y is out alone. Answers the head that out does.
    pub fn beside(&mut self, x: u32, y: u32, side: Side) -> Result<u32, Refusal> {
        let by = if side == Side::Behind { number::FOLLOW } else { number::PRECEDE };
        self.judge_members_early(by, x, y)?;
        require(self.counts.is_link(x), 3)?;
        require(y == 0 || self.counts.is_linkage(y), 3)?;
        require(y != 0 || !on(M::SecondNoneRefused), 3)?;
        self.judge_members(by, x, y)?;
        Ok(self.put(x, y, side))
    }

    /// Into takes a head or none; it is precede of the head.
    pub fn enter(&mut self, x: u32, y: u32) -> Result<u32, Refusal> {
        self.judge_members_early(number::INTO, x, y)?;
        require(self.counts.is_link(x), 3)?;
        self.head_or_none(y)?;
        require(y != 0 || !on(M::SecondNoneRefused), 3)?;
        self.judge_members(number::INTO, x, y)?;
        Ok(self.put(x, y, Side::InFront))
    }

    /// Moves x beside y and answers the head that it left.
    pub fn put(&mut self, x: u32, y: u32, side: Side) -> u32 {
        let left = self.head_of(x);
        self.move_beside(x, y, side);
        self.told(left, x, Some(y))
    }

    /// What a call tells that took x from the set of `left` and, unless it was out, put it beside y; the misreadings tell
    /// something else.
    fn told(&self, left: u32, x: u32, y: Option<u32>) -> u32 {
        let after = || self.head_of(x);
        let beside = y.unwrap_or(0);
        let hidden = (on(M::OutAloneTells) && y.is_some())
            || (on(M::MoveWithinTellsNone) && after() == left)
            || (on(M::SelfTellsNone) && x == beside)
            || (on(M::NowhereTellsNone) && beside != 0 && after() == 0)
            || (on(M::NoneTellsNone) && y == Some(0))
            || (on(M::ProcessTellsNone) && self.counts.is_process(x))
            || (on(M::LastHeadTellsNone) && left == self.counts.heads);
        match left {
            _ if hidden => 0,
            _ if on(M::HeadAfterTold) => after(),
            _ if on(M::HeadOfYTold) && self.counts.is_head(beside) => beside,
            _ if on(M::HeadOfYTold) && y.is_some() => self.head_of(beside),
            0 if on(M::NoneLeftTellsEntered) => after(),
            _ => left,
        }
    }

    pub fn head_or_none(&self, y: u32) -> Result<(), Refusal> {
        let link_taken = on(M::IntoLinkPrecedes) && self.counts.is_link(y);
        require(y == 0 || self.counts.is_head(y) || link_taken, 3)
    }

    /// Answers how many members it removed.
    pub fn clear(&mut self, x: u32) -> Result<u32, Refusal> {
        require(self.counts.is_head(x), 3)?;
        let set = &mut self.sets[x as usize - 1];
        let removed = set.len() as u32;
        if on(M::ClearFirstOnly) && set.len() > 1 {
            set.remove(0);
        } else {
            set.clear();
        }
        Ok(match removed {
            _ if on(M::ClearTellsHead) => x,
            _ if on(M::ClearTellsWhether) => removed.min(1),
            _ if on(M::ClearCountsHead) => removed + 1,
            _ if on(M::ClearCountsByte) => removed % 256,
            _ if on(M::ClearCountsTo511) => removed.min(511),
            _ => removed,
        })
    }

    pub fn first(&self, x: u32) -> Result<u32, Refusal> {
        require(self.counts.is_head(x), 3)?;
        Ok(self.first_of(x))
    }

    pub fn last(&self, x: u32) -> Result<u32, Refusal> {
        require(self.counts.is_head(x), 3)?;
        Ok(self.members(x).last().copied().unwrap_or(0))
    }

    pub fn cardinal(&self, x: u32) -> Result<u32, Refusal> {
        require(self.counts.is_head(x), 3)?;
        let members = self.members(x).len() as u32;
        Ok(match members {
            _ if on(M::CardinalCountsHead) => members + 1,
            _ if on(M::CardinalCountsTo511) => members.min(511),
            _ => members,
        })
    }

    pub fn empty(&self, x: u32) -> Result<bool, Refusal> {
        require(self.counts.is_head(x), 3)?;
        Ok(self.members(x).is_empty())
    }

    /// The member behind x; of a head the first; none where a head would be reached.
    pub fn suc(&self, x: u32) -> Result<u32, Refusal> {
        self.neighbour(x, Side::Behind)
    }

    /// The member in front of x; of a head the last; none where a head would be reached.
    pub fn pred(&self, x: u32) -> Result<u32, Refusal> {
        self.neighbour(x, Side::InFront)
    }

    fn neighbour(&self, x: u32, side: Side) -> Result<u32, Refusal> {
        require(self.counts.is_linkage(x), 3)?;
        if self.counts.is_head(x) {
            require(!on(M::SucOfHeadRefused), 3)?;
            return if side == Side::Behind { self.first(x) } else { self.last(x) };
        }
        let Some(s) = self.set_of(x) else { return Ok(0) };
        let set = &self.sets[s];
        let at = set.iter().position(|&m| m == x).unwrap_or(0);
        let next = if side == Side::Behind { set.get(at + 1) } else { at.checked_sub(1).map(|i| &set[i]) };
        let end = if on(M::SucGivesHead) { s as u32 + 1 } else { 0 };
        Ok(next.copied().unwrap_or(end))
    }
}
