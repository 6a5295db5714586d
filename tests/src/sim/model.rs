//! The model as plain lists: the members of each head, the notices in order, the terminated.

use super::kept::Kept;
use crate::mutations::{on, M};

/// The number of a refusal, 1 to 8 or 10.
pub type Refusal = u32;

pub const MAX_HEADS: u32 = 64;
pub const MAX_PROCESSES: u32 = 1_024;
pub const MAX_PLAIN: u32 = 3_008;
/// The most members that a set may have.
pub const MAX_MEMBERS: usize = 512;
/// The latest time, 2^40 - 1.
pub const LIMIT: u64 = (1 << 40) - 1;

/// H, P and L: how many heads, processes and plain links there are.
#[derive(Clone, Copy, Debug, PartialEq, Eq)]
pub struct Counts {
    pub heads: u32,
    pub processes: u32,
    pub plain: u32,
}

impl Counts {
    pub fn new(heads: u32, processes: u32, plain: u32) -> Counts {
        Counts { heads, processes, plain }
    }

    pub fn within_limits(self) -> bool {
        self.heads <= MAX_HEADS && (1..=MAX_PROCESSES).contains(&self.processes) && self.plain <= MAX_PLAIN
    }

    /// N, the number of linkages.
    pub fn total(self) -> u32 {
        self.heads + self.processes + self.plain
    }

    pub fn main(self) -> u32 {
        self.heads + 1
    }

    pub fn is_linkage(self, i: u32) -> bool {
        (1..=self.total()).contains(&i)
    }

    pub fn is_head(self, i: u32) -> bool {
        (1..=self.heads).contains(&i)
    }

    pub fn is_link(self, i: u32) -> bool {
        self.is_linkage(i) && !self.is_head(i)
    }

    pub fn is_process(self, i: u32) -> bool {
        self.is_link(i) && i - self.heads <= self.processes
    }

    /// The linkage number of the p-th process.
    pub fn process(self, p: u32) -> u32 {
        self.heads + p
    }

    /// Which process this linkage is: p of the p-th.
    pub fn place(self, process: u32) -> u32 {
        process - self.heads
    }
}

/// An event notice: a process (by its linkage number) and its time.
#[derive(Clone, Copy, Debug, PartialEq, Eq)]
pub struct Notice {
    pub process: u32,
    pub time: u64,
}

#[derive(Clone, Debug, PartialEq, Eq)]
pub struct Model {
    pub counts: Counts,
    /// The members of head h at h - 1, first to last.
    pub sets: Vec<Vec<u32>>,
    /// The sequencing set, the current notice first.
    pub notices: Vec<Notice>,
    /// Whether the p-th process is terminated, at p - 1.
    pub terminated: Vec<bool>,
    /// What a misread run counts beside its lists; none else.
    pub kept: Option<Kept>,
}

impl Model {
    /// Empty sets and one notice, main at 0.
    pub fn fresh(counts: Counts) -> Model {
        Model {
            counts,
            sets: vec![Vec::new(); counts.heads as usize],
            notices: vec![Notice { process: counts.main(), time: 0 }],
            terminated: vec![false; counts.processes as usize],
            kept: None,
        }
    }

    pub fn current(&self) -> u32 {
        self.notices[0].process
    }

    pub fn time(&self) -> u64 {
        self.notices[0].time
    }

    /// The index of the set that holds this link.
    pub fn set_of(&self, link: u32) -> Option<usize> {
        self.sets.iter().position(|set| set.contains(&link))
    }

    /// The head of the set that holds this link, 0 if none does.
    pub fn head_of(&self, link: u32) -> u32 {
        let near = |set: &Vec<u32>| !on(M::WalkOf511) || set.iter().rev().take(511).any(|&member| member == link);
        self.set_of(link).filter(|&s| near(&self.sets[s])).map_or(0, |s| s as u32 + 1)
    }

    /// The members of a head.
    pub fn members(&self, head: u32) -> &Vec<u32> {
        &self.sets[head as usize - 1]
    }

    /// The index of this process's notice; none if it is idle.
    pub fn notice_of(&self, process: u32) -> Option<usize> {
        self.notices.iter().position(|n| n.process == process)
    }

    pub fn is_terminated(&self, process: u32) -> bool {
        self.terminated[self.counts.place(process) as usize - 1]
    }

    /// The first member of head h, 0 if it is empty.
    pub fn first_of(&self, head: u32) -> u32 {
        self.members(head).first().copied().unwrap_or(0)
    }
}

/// Turned down with this number unless the condition holds.
pub fn require(holds: bool, refusal: Refusal) -> Result<(), Refusal> {
    if holds {
        Ok(())
    } else {
        Err(refusal)
    }
}
