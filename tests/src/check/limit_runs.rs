//! How the run lists come to sets at their limit, and what the sheets built for them print.

use crate::drive::tally::Tally;
use crate::expected::expected;
use crate::gen::limit_sheets;
use crate::gen::run_lists::{limit_lists, RunList};
use crate::protocol::Response;
use crate::rng::Rng;
use crate::sim::call::number as op;
use crate::sim::model::MAX_MEMBERS;
use crate::sim::operand::Field;
use crate::sim::print;
use crate::sim::run::{End, Run, FULL, LINE};
use crate::sim::sheet::{Record, Sheet};
use std::collections::BTreeMap;

/// A step that a run is about to make: the sets before it, and after it unless it is refused.
struct Step<'a> {
    record: Record,
    /// Current for wait, else the linkage that x stands for.
    x: u32,
    y: u32,
    before: &'a Run,
    after: Result<&'a Run, u32>,
    /// The call is not the first of its list; the step is the first of its call.
    continued: bool,
    first: bool,
}

impl Step<'_> {
    fn does(&self, operation: u32) -> bool {
        u32::from(self.record.operation) == operation
    }

    fn refused(&self, operation: u32, number: u32) -> bool {
        self.does(operation) && self.after == Err(number)
    }

    fn head(&self) -> bool {
        self.before.model.counts.is_head(self.y)
    }

    fn process(&self) -> bool {
        self.before.model.counts.is_process(self.x)
    }

    fn alone(&self) -> bool {
        self.before.model.notices.len() == 1
    }

    fn is_full(&self, set: Option<usize>) -> bool {
        set.is_some_and(|s| self.before.model.sets[s].len() == MAX_MEMBERS)
    }

    fn from_full(&self) -> bool {
        self.is_full(self.before.model.set_of(self.x))
    }

    /// Refused with 3 where y is a member of a full set, or its head.
    fn wrong_at_full(&self) -> bool {
        let model = &self.before.model;
        let set = if self.head() { Some(self.y as usize - 1) } else { model.set_of(self.y) };
        self.after == Err(3) && self.is_full(set)
    }

    /// The sets of x before and after an accepted step that may move it.
    fn moved(&self) -> Option<(Option<usize>, Option<usize>)> {
        let after =
            self.after.ok().filter(|_| matches!(u32::from(self.record.operation), op::OUT..=op::INTO | op::WAIT))?;
        Some((self.before.model.set_of(self.x), after.model.set_of(self.x)))
    }

    fn within(&self, operation: u32) -> bool {
        self.does(operation) && self.from_full() && self.moved().is_some_and(|(from, to)| from == to)
    }

    fn leaves(&self) -> bool {
        self.from_full() && self.moved().is_some_and(|(from, to)| from != to)
    }

    /// A link comes into a set and fills it.
    fn fills(&self, operation: u32) -> bool {
        let full = |s: usize| self.after.is_ok_and(|run| run.model.sets[s].len() == MAX_MEMBERS);
        self.does(operation) && self.moved().is_some_and(|(from, to)| from != to && to.is_some_and(full))
    }

    /// How many sets have at least so many members.
    fn sets_of(&self, members: usize) -> usize {
        self.before.model.sets.iter().filter(|set| set.len() >= members).count()
    }

    fn links(&self) -> usize {
        (self.before.model.counts.total() - self.before.model.counts.heads) as usize
    }
}

/// A name, and whether a step meets it.
type Way = (&'static str, fn(&Step) -> bool);

/// What there is to meet.
const WAYS: &[Way] = &[
    ("10 for follow beside a head", |s| s.refused(op::FOLLOW, 10) && s.head()),
    ("10 for follow beside a member", |s| s.refused(op::FOLLOW, 10) && !s.head()),
    ("10 for precede beside a head", |s| s.refused(op::PRECEDE, 10) && s.head()),
    ("10 for precede beside a member", |s| s.refused(op::PRECEDE, 10) && !s.head()),
    ("10 for into of a plain link", |s| s.refused(op::INTO, 10) && !s.process()),
    ("10 for into of a process", |s| s.refused(op::INTO, 10) && s.process()),
    ("10 for wait with more notices", |s| s.refused(op::WAIT, 10) && !s.alone()),
    ("10 for wait with the last notice", |s| s.refused(op::WAIT, 10) && s.alone()),
    ("10 for a move from a full set to another", |s| s.after == Err(10) && s.from_full()),
    ("4 for wait by a member of a full set", |s| s.refused(op::WAIT, 4) && s.from_full()),
    ("3 for follow, x being none", |s| s.wrong_at_full() && s.does(op::FOLLOW)),
    ("3 for precede, x being a head", |s| s.wrong_at_full() && s.does(op::PRECEDE)),
    ("3 for into, x being a head", |s| s.wrong_at_full() && s.does(op::INTO) && s.head()),
    ("3 for into, y being a member", |s| s.wrong_at_full() && s.does(op::INTO) && !s.head()),
    ("3 for wait, y being a member", |s| s.wrong_at_full() && s.does(op::WAIT)),
    ("follow within a full set", |s| s.within(op::FOLLOW)),
    ("precede within a full set", |s| s.within(op::PRECEDE)),
    ("into within a full set", |s| s.within(op::INTO)),
    ("a move within one of two full sets", |s| {
        s.sets_of(MAX_MEMBERS) > 1 && (s.within(op::INTO) || s.within(op::PRECEDE))
    }),
    ("a move within a set of all 512 links", |s| s.links() == MAX_MEMBERS && s.within(op::INTO)),
    ("out of a full set", |s| s.does(op::OUT) && s.leaves()),
    ("from a full set to another", |s| s.leaves() && s.moved().is_some_and(|(_, to)| to.is_some())),
    ("from a full set beside itself", |s| s.leaves() && s.does(op::FOLLOW) && s.x == s.y),
    ("from a full set beside a link in no set", |s| s.leaves() && s.does(op::PRECEDE) && s.x != s.y && s.y != 0),
    ("from a full set to none", |s| s.leaves() && s.does(op::INTO) && s.y == 0),
    ("clear of a full set", |s| s.does(op::CLEAR) && s.before.model.members(s.x).len() == MAX_MEMBERS),
    ("a set filled by follow", |s| s.fills(op::FOLLOW)),
    ("a set filled by precede", |s| s.fills(op::PRECEDE)),
    ("a set filled by into", |s| s.fills(op::INTO)),
    ("a set filled by wait", |s| s.fills(op::WAIT)),
    ("a call continued with 500 to 511 members", |s| {
        s.continued && s.first && s.sets_of(500) > 0 && s.sets_of(MAX_MEMBERS) == 0
    }),
    ("a call continued with a full set", |s| s.continued && s.first && s.sets_of(MAX_MEMBERS) > 0),
    ("10 in the first call of a list", |s| !s.continued && s.after == Err(10)),
    ("10 as the first step of a call", |s| s.continued && s.first && s.after == Err(10)),
    ("10 behind other steps of a call", |s| s.continued && !s.first && s.after == Err(10)),
];

/// How often each has been met, and how often calls after a refusal were answered as they have to be.
#[derive(Default)]
struct Met {
    ways: BTreeMap<&'static str, u32>,
    again: u32,
    no_room: u32,
}

impl Met {
    /// Looks at the step that the machine never cut is about to make, and makes it.
    fn step(&mut self, run: &mut Run, sheet: &Sheet, continued: bool, first: bool) {
        let before = run.clone();
        let made = run.turn(sheet, usize::MAX);
        let after = match made {
            Ok(_) => Ok(&*run),
            Err(End::Refused(number)) => Err(number),
            Err(_) => return,
        };
        if before.at() == 0 {
            return;
        }
        let record = sheet.record(before.at());
        let waits = u32::from(record.operation) == op::WAIT;
        let named = |field: Field, value: u32| before.model.operand(record.operation, field, value);
        let x = if waits { before.model.current() } else { named(Field::X, record.x) };
        let y = named(Field::Y, record.y);
        let step = Step { record, x, y, before: &before, after, continued, first };
        WAYS.iter().filter(|(_, met)| met(&step)).for_each(|(name, _)| *self.ways.entry(name).or_default() += 1);
    }

    /// The steps of one call, the one that was refused too; and what is answered where there is no room for that step, or once more.
    fn call(&mut self, list: &mut RunList, response: &Response, continued: bool) {
        for line in 0..response.lines {
            self.step(&mut list.uncut, &list.sheet, continued, line == 0);
        }
        let next = list.uncut.clone().turn(&list.sheet, usize::MAX).err();
        let room = response.lent.trace.len() - LINE * response.lines as usize;
        match response.code {
            10 if response.lines == 0 && room == LINE => self.again += 1,
            FULL if next == Some(End::Refused(10)) && room < LINE => self.no_room += 1,
            _ => {}
        }
        if matches!(response.code, 3 | 4 | 10) {
            self.step(&mut list.uncut, &list.sheet, continued, response.lines == 0);
        }
    }
}

/// The sheets built by hand, in whole runs and in pieces.
pub fn check(tally: &mut Tally) {
    for (sheet, wanted) in limit_sheets::told() {
        let text = print::text(&sheet.encode());
        let got = text.lines().last().unwrap_or("").to_string();
        tally.check(got == wanted, &format!("wanted {wanted}, got {got}"));
    }
    let mut met = Met::default();
    let mut rng = Rng::new(1);
    for mut list in limit_lists() {
        let mut continued = false;
        while list.goes_on() {
            let response = expected(&list.next(&mut rng));
            list.go_on_from(&response.lent);
            met.call(&mut list, &response, continued);
            continued = true;
        }
    }
    for (name, _) in WAYS {
        let count = met.ways.get(name).copied().unwrap_or(0);
        println!("runs at the limit, {name}: {count}");
        tally.check(count > 0, &format!("runs never meet {name}"));
    }
    tally.check(met.again > 0, "no call answers 10 once more");
    tally.check(met.no_room > 0, "no call is full where its next step would be refused with 10");
}
