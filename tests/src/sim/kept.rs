//! The members of each set as a run might count them beside its lists: misreadings that do not keep the count up.

use super::call::number;
use super::model::{Model, MAX_MEMBERS};
use crate::mutations::{on, M};

/// How many members each set has by this count.
#[derive(Clone, Debug, PartialEq, Eq)]
pub struct Kept {
    members: Vec<usize>,
}

impl Kept {
    /// The count as a call of a run begins; none unless such a misreading is switched on.
    pub fn begin(model: &Model) -> Option<Kept> {
        let kept = [M::KeptByOut, M::KeptByClear, M::KeptByMove, M::KeptFromNone].into_iter().any(on);
        let members = |set: &Vec<u32>| if on(M::KeptFromNone) { 0 } else { set.len() };
        kept.then(|| Kept { members: model.sets.iter().map(members).collect() })
    }

    /// Whether no set grows whose count is at the limit.
    pub fn allows(&self, before: &[Vec<u32>], after: &[Vec<u32>]) -> bool {
        let full = |s: usize| self.members[s] >= MAX_MEMBERS;
        (0..before.len()).all(|s| after[s].len() <= before[s].len() || !full(s))
    }

    /// The count after an accepted step of this operation.
    pub fn follow(&mut self, operation: u32, before: &[Vec<u32>], after: &[Vec<u32>]) {
        let stale = match operation {
            number::OUT => on(M::KeptByOut),
            number::CLEAR => on(M::KeptByClear),
            _ => on(M::KeptByMove),
        };
        for (s, members) in self.members.iter_mut().enumerate() {
            let (old, new) = (before[s].len(), after[s].len());
            *members += new.saturating_sub(old);
            if !stale {
                *members = members.saturating_sub(old.saturating_sub(new));
            }
        }
    }
}
