//! Models with full sets, or nearly full ones, and what can be said to their links.

use crate::sim::call::{number, Call};
use crate::sim::model::{Counts, Model, Notice};

/// A model and the head whose set the calls are about.
pub struct Crowd {
    pub model: Model,
    pub head: u32,
}

/// A call, and the notices with which it is made.
pub struct Made {
    pub call: Call,
    pub notices: Vec<Notice>,
}

pub fn call(number: u32, x: u32, y: u32) -> Call {
    Call { x, y, ..Call::new(number) }
}

impl Crowd {
    /// These heads have so many members, as far as there are links; the calls are about the first. Each set has some processes, and
    /// some are in none, as long as plain links fill the sets.
    pub fn new(counts: Counts, lengths: &[(u32, usize)]) -> Crowd {
        let mut model = Model::fresh(counts);
        let groups = lengths.len() as u32 + 1;
        let dealt = |group: u32| (1..=counts.processes).filter(move |p| p % groups == group).map(|p| counts.process(p));
        let mut plain: Vec<u32> = (counts.process(counts.processes) + 1..=counts.total()).collect();
        for (&(head, length), group) in lengths.iter().zip(0..) {
            let mut members: Vec<u32> = dealt(group).take(length).collect();
            let missing = length - members.len();
            members.extend(plain.split_off(plain.len() - missing.min(plain.len())));
            let missing = length - members.len();
            members.extend(dealt(groups - 1).filter(|&x| model.set_of(x).is_none()).take(missing));
            // every 7th from the front, then from the one behind, ..
            model.sets[head as usize - 1] = (0..7).flat_map(|i| members.iter().skip(i).step_by(7).copied()).collect();
        }
        Crowd { model, head: lengths[0].0 }
    }

    pub fn members(&self) -> &Vec<u32> {
        self.model.members(self.head)
    }

    /// First, middle and last of the set.
    pub fn within(&self) -> Vec<u32> {
        let set = self.members();
        let mut places = vec![0, set.len() / 2, set.len().saturating_sub(1)];
        places.dedup();
        places.iter().filter_map(|&at| set.get(at).copied()).collect()
    }

    /// A plain link and a process of another set, where there is one.
    pub fn elsewhere(&self) -> Vec<u32> {
        let counts = self.model.counts;
        let others =
            || (1..=counts.heads).filter(|&h| h != self.head).flat_map(|h| self.model.members(h).iter().copied());
        others().find(|&x| !counts.is_process(x)).into_iter().chain(others().find(|&x| counts.is_process(x))).collect()
    }

    /// A plain link and a process of no set, where there is one.
    pub fn outside(&self) -> Vec<u32> {
        let counts = self.model.counts;
        let mut seen = vec![false; counts.total() as usize + 1];
        self.model.sets.iter().flatten().for_each(|&x| seen[x as usize] = true);
        let free = || (counts.heads + 1..=counts.total()).filter(|&x| !seen[x as usize]);
        free().find(|&x| !counts.is_process(x)).into_iter().chain(free().find(|&x| counts.is_process(x))).collect()
    }

    /// Another head: an empty one, or else any.
    pub fn other_head(&self) -> Option<u32> {
        let others = || (1..=self.model.counts.heads).filter(|&h| h != self.head);
        others().find(|&h| self.model.members(h).is_empty()).or(others().next())
    }

    /// This process is current, and one more is scheduled unless it is to be alone.
    pub fn notices(&self, current: u32, alone: bool) -> Vec<Notice> {
        let counts = self.model.counts;
        let next = [counts.main(), counts.process(counts.processes)].into_iter().find(|&p| p != current);
        let next = next.filter(|_| !alone).map(|process| Notice { process, time: 9 });
        [Notice { process: current, time: 5 }].into_iter().chain(next).collect()
    }

    /// Into the set beside its head and its members, by links of each kind and place; on few places only if it is not to be wide.
    pub fn entering(&self, wide: bool) -> Vec<Call> {
        let mut places = self.within();
        places.insert(0, self.head);
        let links = |list: Vec<u32>| list.into_iter().take(if wide { 3 } else { 1 });
        let mut calls = Vec::new();
        for x in links(self.outside()).chain(links(self.elsewhere())).chain(links(self.within())) {
            let places = if wide { &places[..] } else { &places[..places.len().min(2)] };
            calls.push(call(number::INTO, x, self.head));
            calls.extend(
                places.iter().flat_map(|&y| [number::FOLLOW, number::PRECEDE].map(|number| call(number, x, y))),
            );
        }
        calls
    }

    /// Waits by a process in no set, in another and in this one, alone on the axis and not: on the set and, if it is to be wide, on none,
    /// on another head, and on what is no head.
    pub fn waits(&self, wide: bool) -> Vec<Made> {
        let counts = self.model.counts;
        let is_process = |x: &u32| counts.is_process(*x);
        let sources = [self.outside(), self.elsewhere(), self.members().clone()];
        let processes = sources.iter().filter_map(|list| list.iter().copied().find(is_process));
        let heads =
            [Some(self.head), Some(0), self.other_head(), self.members().first().copied(), Some(counts.total() + 1)];
        let mut made = Vec::new();
        for current in processes {
            for alone in [true, false] {
                let wait = |y: u32| Made { call: call(number::WAIT, 0, y), notices: self.notices(current, alone) };
                made.extend(heads.iter().flatten().take(if wide { heads.len() } else { 1 }).map(|&y| wait(y)));
            }
        }
        made
    }
}
