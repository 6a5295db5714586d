//! Calls on sets that have as many members as they may, or one less: all that enter them, from everywhere and beside everything, and
//! those that leave them or ask them.

use super::crowds::{call, Crowd, Made};
use super::operands::{self, Manner};
use super::Case;
use crate::protocol::{Lent, Request};
use crate::rng::Rng;
use crate::sim::call::{number, Call};
use crate::sim::model::{Counts, MAX_HEADS, MAX_MEMBERS, MAX_PLAIN, MAX_PROCESSES};
use crate::sim::tables::encode;

const FULL: usize = MAX_MEMBERS;

impl Crowd {
    fn case(&self, made: Made) -> Case {
        let mut model = self.model.clone();
        model.notices = made.notices;
        let lent = Lent { tables: encode(&model), ..Lent::default() };
        let request = Request { call: made.call, counts: model.counts, lent, sheet: Vec::new() };
        Case { request, note: "a set at its limit" }
    }

    /// Main is current, and not alone where there is another.
    fn by_main(&self, call: Call) -> Made {
        Made { call, notices: self.notices(self.model.counts.main(), false) }
    }

    /// A link beside itself, beside one in no set, and beside none: it enters no set.
    fn entering_none(&self) -> Vec<Call> {
        let both = |x: u32, y: u32| [number::FOLLOW, number::PRECEDE].map(|number| call(number, x, y));
        let mut calls = Vec::new();
        let some = [self.within(), self.elsewhere(), self.outside()].map(|links| links.into_iter().take(2));
        for x in some.into_iter().flatten() {
            calls.extend(both(x, x));
            calls.extend(both(x, 0));
            calls.push(call(number::INTO, x, 0));
            calls.extend(self.outside().into_iter().find(|&y| y != x).into_iter().flat_map(|y| both(x, y)));
        }
        calls
    }

    /// Operands of the wrong kind or out of range, the other one being a full set: refused with 3.
    fn wrong(&self) -> Vec<Call> {
        let (total, member) = (self.model.counts.total(), self.within()[0]);
        let no_links = [0, self.head, self.other_head().unwrap_or(0), total + 1, 65_536, u32::MAX];
        let mut calls = Vec::new();
        for x in no_links {
            calls.extend(
                [(number::FOLLOW, self.head), (number::PRECEDE, member), (number::INTO, self.head)]
                    .map(|(n, y)| call(n, x, y)),
            );
        }
        for x in self.outside().into_iter().chain([member]) {
            calls.extend([member, total + 1, 65_536 + self.head].map(|y| call(number::INTO, x, y)));
            calls.extend([number::FOLLOW, number::PRECEDE].map(|number| call(number, x, total + 1)));
        }
        calls
    }

    /// Out, clear and what can be asked of a set.
    fn leaving(&self) -> Vec<Call> {
        let asked =
            [number::CLEAR, number::EMPTY, number::FIRST, number::LAST, number::CARDINAL, number::SUC, number::PRED];
        let of_head = asked.into_iter().map(|number| call(number, self.head, 0));
        let of_member = |x: u32| [number::OUT, number::SUC, number::PRED].map(|number| call(number, x, 0));
        of_head.chain(self.within().into_iter().flat_map(of_member)).collect()
    }

    /// All calls that are to enter the set.
    pub fn to_enter(&self, wide: bool) -> Vec<Made> {
        self.entering(wide).into_iter().map(|call| self.by_main(call)).chain(self.waits(wide)).collect()
    }

    /// These, and if it is to be wide all others.
    fn made(&self, wide: bool) -> Vec<Made> {
        let others = if wide { [self.entering_none(), self.wrong(), self.leaving()].concat() } else { Vec::new() };
        let others = others.into_iter().map(|call| self.by_main(call));
        self.to_enter(wide).into_iter().chain(others).collect()
    }
}

/// Links leave a full set one by one and all at once, and others enter until it is full again: each call on what the ones before have
/// left, with the code that it has to come to.
pub fn in_turn(head: u32) -> Vec<(Case, u32)> {
    let mut crowd = Crowd::new(Counts::new(2, 4, 600), &[(head, FULL)]);
    let (members, free) = (crowd.within(), crowd.outside()[0]); // this link and the next two are in no set
    let calls = [
        (call(number::INTO, free, head), 10),
        (call(number::OUT, members[0], 0), 0),
        (call(number::INTO, free, head), 0),
        (call(number::INTO, free + 1, head), 10),
        (call(number::INTO, members[2], 0), 0),
        (call(number::FOLLOW, free + 1, free), 0),
        (call(number::PRECEDE, free + 2, free), 10),
        (call(number::FOLLOW, members[1], members[1]), 0),
        (call(number::PRECEDE, free + 2, free), 0),
        (call(number::FOLLOW, members[0], head), 10),
        (call(number::CLEAR, head, 0), 0),
        (call(number::FOLLOW, members[0], head), 0),
        (call(number::INTO, members[1], head), 0),
        (call(number::CARDINAL, head, 0), 0),
    ];
    let mut cases = Vec::new();
    for (call, code) in calls {
        cases.push((crowd.case(crowd.by_main(call)), code));
        let _ = crowd.model.make(call);
    }
    cases
}

/// Models of each kind, with the calls on them wide or not.
pub fn crowds() -> Vec<(Crowd, bool)> {
    let last = MAX_HEADS;
    let (one, many) = (Counts::new(1, 4, 600), Counts::new(last, 6, 700));
    let few = |processes: u32, plain: u32| Counts::new(1, processes, plain);
    let most = |heads: u32| Counts::new(heads, MAX_PROCESSES, MAX_PLAIN);
    let all_linked: Vec<(u32, usize)> = (1..=8).map(|h| (h, if h == 4 { 448 } else { FULL })).collect();
    let four: Vec<(u32, usize)> = [last, 1, 7, 8].map(|h| (h, FULL)).to_vec();
    vec![
        (Crowd::new(one, &[(1, FULL)]), true),
        (Crowd::new(one, &[(1, FULL - 1)]), false),
        (Crowd::new(many, &[(last, FULL), (1, 9)]), false),
        (Crowd::new(many, &[(last, FULL - 1), (1, 9)]), true),
        (Crowd::new(Counts::new(3, 6, 1_100), &[(2, FULL), (3, FULL)]), true),
        (Crowd::new(many, &[(1, FULL), (last, 9)]), false),
        (Crowd::new(many, &[(1, FULL - 1), (last, 9)]), false),
        (Crowd::new(many, &[(32, FULL), (33, 9)]), false),
        (Crowd::new(Counts::new(2, 6, 1_100), &[(1, FULL), (2, FULL)]), false),
        (Crowd::new(Counts::new(2, 6, 1_100), &[(2, FULL - 1), (1, FULL)]), false),
        (Crowd::new(Counts::new(3, 600, 600), &[(2, FULL), (3, 9)]), false),
        (Crowd::new(few(1, 510), &[(1, FULL)]), false),
        (Crowd::new(few(1, 511), &[(1, FULL)]), true),
        (Crowd::new(few(1, 512), &[(1, FULL)]), false),
        (Crowd::new(few(511, 0), &[(1, FULL)]), false),
        (Crowd::new(few(512, 0), &[(1, FULL)]), false),
        (Crowd::new(few(513, 0), &[(1, FULL)]), false),
        (Crowd::new(most(1), &[(1, FULL)]), false),
        (Crowd::new(most(8), &all_linked), false),
        (Crowd::new(most(last), &four), false),
    ]
}

/// Every model with its calls.
pub fn all() -> Vec<Case> {
    let mut cases = Vec::new();
    for (crowd, wide) in crowds() {
        cases.extend(crowd.made(wide).into_iter().map(|made| crowd.case(made)));
    }
    cases.extend([1, 2].into_iter().flat_map(in_turn).map(|(case, _)| case));
    cases
}

/// Whether this call is among those made on such sets.
pub fn has(number: u32) -> bool {
    matches!(number, number::OUT..=number::CLEAR | number::WAIT | number::EMPTY | number::FIRST..=number::CARDINAL)
}

/// Such a call on any such set.
pub fn any(rng: &mut Rng, number: u32) -> Case {
    let heads = rng.pick(&[1, 2, 3, MAX_HEADS]);
    let plain = rng.pick(&[505, 509, 530, 1_100]);
    let counts = Counts::new(heads, rng.pick(&[1, 3, 8, 600]), plain + rng.between(0, 3));
    let head = rng.between(1, heads);
    let other = rng.between(1, heads);
    let mut lengths = vec![(head, FULL - rng.pick(&[0, 0, 0, 1, 1, 2]))];
    if other != head {
        lengths.push((other, rng.pick(&[0, 3, FULL - 1, FULL])));
    }
    let crowd = Crowd::new(counts, &lengths);
    let current = counts.process(rng.between(1, counts.processes));
    if rng.chance(25) {
        let call = operands::call(rng, &crowd.model, number, Manner::Wild);
        return crowd.case(Made { call, notices: crowd.notices(current, rng.chance(20)) });
    }
    let enters = matches!(number, number::FOLLOW..=number::INTO | number::WAIT) && rng.chance(50);
    let mut made = if enters { crowd.to_enter(true) } else { crowd.made(true) };
    made.retain(|made| made.call.number == number);
    let chosen = rng.index(made.len());
    crowd.case(made.swap_remove(chosen))
}
