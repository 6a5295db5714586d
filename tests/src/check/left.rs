//! Which links the generated calls take from which queues.

use crate::drive::tally::Tally;
use crate::protocol::Request;
use crate::sim::call::{number as op, Call};
use crate::sim::model::{Model, MAX_HEADS, MAX_MEMBERS, MAX_PLAIN, MAX_PROCESSES};
use std::collections::{BTreeMap, BTreeSet};

/// How often links leave queues, and which.
#[derive(Default)]
pub struct Left {
    by_call: BTreeMap<u32, u32>,
    from_none: BTreeMap<u32, u32>,
    from_longest: BTreeMap<u32, u32>,
    from_crowd: BTreeMap<u32, u32>,
    within: u32,
    itself: u32,
    nowhere: u32,
    none: u32,
    last_head: u32,
    cleared: BTreeSet<usize>,
    refused_in_set: u32,
}

impl Left {
    pub fn count(&mut self, request: &Request, model: &Model, code: u32) {
        let Call { number, x, y, .. } = request.call;
        match number {
            op::CLEAR if code == 0 => {
                self.cleared.insert(model.members(x).len());
            }
            op::OUT..=op::INTO => self.moved(number, x, y, model, code),
            op::WAIT => self.moved(number, model.current(), y, model, code),
            _ => {}
        }
    }

    /// x is put beside y.
    fn moved(&mut self, number: u32, x: u32, y: u32, model: &Model, code: u32) {
        let Some(from) = model.set_of(x).filter(|_| model.counts.is_link(x)) else {
            *self.from_none.entry(number).or_default() += u32::from(code == 0);
            return;
        };
        if code != 0 {
            self.refused_in_set += 1;
            return;
        }
        *self.by_call.entry(number).or_default() += 1;
        *self.from_longest.entry(number).or_default() += u32::from(model.sets[from].len() == MAX_MEMBERS);
        let crowd = model.sets.iter().map(Vec::len).sum::<usize>() == (MAX_PROCESSES + MAX_PLAIN) as usize;
        *self.from_crowd.entry(number).or_default() += u32::from(crowd);
        let own = y == from as u32 + 1 || (x != y && model.sets[from].contains(&y));
        self.within += u32::from(own);
        self.itself += u32::from(x == y);
        self.nowhere += u32::from(model.counts.is_link(y) && model.set_of(y).is_none());
        self.none += u32::from(y == 0 && number != op::OUT);
        self.last_head += u32::from(from as u32 + 1 == MAX_HEADS);
    }

    pub fn check(&self, tally: &mut Tally) {
        for (name, by_call) in [
            ("a link in a set", &self.by_call),
            ("a link in no set", &self.from_none),
            ("a link in a full set", &self.from_longest),
            ("a link where 4,032 are in sets", &self.from_crowd),
        ] {
            for call in [op::OUT, op::FOLLOW, op::PRECEDE, op::INTO, op::WAIT] {
                let count = by_call.get(&call).copied().unwrap_or(0);
                println!("call {call} on {name}: {count}");
                tally.check(count > 0, &format!("never met: call {call} on {name}"));
            }
        }
        for (name, count) in [
            ("moved within its set", self.within),
            ("beside itself", self.itself),
            ("beside a link in no set", self.nowhere),
            ("beside none", self.none),
            ("from the set of head 64", self.last_head),
            ("refused in a set", self.refused_in_set),
        ] {
            println!("a link {name}: {count}");
            tally.check(count > 0, &format!("never met: a link {name}"));
        }
        for length in 0..=MAX_MEMBERS {
            tally.check(self.cleared.contains(&length), &format!("never met: clear of {length} members"));
        }
    }
}
