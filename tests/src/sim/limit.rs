//! Refusal 10: a follow, precede, into or wait after which some set would have more members than it may.

use super::call::number;
use super::model::{require, Model, Refusal, MAX_MEMBERS};
use super::sets::Side;
use crate::mutations::{on, M};

impl Model {
    /// Refused if some set would have too many members with x put beside y by this call.
    pub fn judge_members(&mut self, by: u32, x: u32, y: u32) -> Result<(), Refusal> {
        let fits = self.misread(by, x, y).unwrap_or_else(|| self.fits(by, x, y));
        if !fits && on(M::FullTakesOut) {
            self.unlink(x);
        }
        require(fits, 10)
    }

    /// For a misreading: the same before kinds are judged.
    pub fn judge_members_early(&mut self, by: u32, x: u32, y: u32) -> Result<(), Refusal> {
        if on(M::TenBeforeThree) {
            self.judge_members(by, x, y)?;
        }
        Ok(())
    }

    /// The call is made on a copy of the lists, and the members of each set are counted.
    fn fits(&self, by: u32, x: u32, y: u32) -> bool {
        let mut after = self.clone();
        after.move_beside(x, y, if by == number::FOLLOW { Side::Behind } else { Side::InFront });
        let counted = || after.sets.iter().all(|set| set.len() <= MAX_MEMBERS);
        self.miscounted(&after.sets).unwrap_or_else(counted)
    }

    /// What a misreading counts in these sets instead; none where it has nothing to say.
    fn miscounted(&self, after: &[Vec<u32>]) -> Option<bool> {
        let all_fit = |most: usize| after.iter().all(|set| set.len() <= most);
        let kind_fits = |process: bool| {
            let of_kind = |set: &Vec<u32>| set.iter().filter(|&&x| self.counts.is_process(x) == process).count();
            after.iter().all(|set| of_kind(set) <= MAX_MEMBERS)
        };
        match &self.kept {
            Some(kept) => Some(kept.allows(&self.sets, after)),
            _ if on(M::SetOf513) => Some(all_fit(MAX_MEMBERS + 1)),
            _ if on(M::SetOf511) => Some(all_fit(MAX_MEMBERS - 1)),
            _ if on(M::PlainLinksCounted) => Some(kind_fits(false)),
            _ if on(M::ProcessesCounted) => Some(kind_fits(true)),
            _ if on(M::AllSetsCounted) => Some(after.iter().map(Vec::len).sum::<usize>() <= MAX_MEMBERS),
            _ => None,
        }
    }

    /// The set that is y or that y stands in.
    fn set_at(&self, y: u32) -> Option<usize> {
        if self.counts.is_head(y) {
            Some(y as usize - 1)
        } else {
            self.set_of(y)
        }
    }

    /// What a misreading says instead; none where it has nothing to say.
    fn misread(&self, by: u32, x: u32, y: u32) -> Option<bool> {
        let is_full = |set: Option<usize>| set.is_some_and(|s| self.sets[s].len() >= MAX_MEMBERS);
        let (from, to) = (self.set_of(x), self.set_at(y));
        let free = on(M::FollowUntested) && by == number::FOLLOW
            || on(M::PrecedeUntested) && by == number::PRECEDE
            || on(M::IntoUntested) && by == number::INTO
            || on(M::WaitUntested) && by == number::WAIT
            || on(M::BesideLinkUntested) && self.counts.is_link(y)
            || on(M::LinkedNotCounted) && from.is_some()
            || on(M::FirstHeadTested) && to != Some(0)
            || on(M::LastHeadUntested) && to.is_some_and(|s| s + 1 == self.sets.len());
        let full = on(M::MoveWithinCounted) && from == to && x != y && is_full(to)
            || on(M::SelfInFullRefused) && x == y && is_full(to)
            || on(M::UnlinkedInFullRefused) && self.counts.is_link(y) && to.is_none() && is_full(from)
            || on(M::NoneInFullRefused) && y == 0 && is_full(from);
        match to {
            _ if free => Some(true),
            _ if full => Some(false),
            _ if on(M::OldSetTested) => Some(!is_full(from)),
            _ => None,
        }
    }
}
