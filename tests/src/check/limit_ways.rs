//! The ways in which a call can meet a set at its limit.

use crate::sim::call::number as op;
use crate::sim::model::{Model, MAX_HEADS, MAX_MEMBERS, MAX_PLAIN, MAX_PROCESSES};

/// As many links as a model can have.
pub const LINKS: usize = (MAX_PROCESSES + MAX_PLAIN) as usize;

/// A call on a good model, with what it came to; x is current for wait.
pub struct Look<'a> {
    pub number: u32,
    pub x: u32,
    pub y: u32,
    pub model: &'a Model,
    pub code: u32,
}

impl Look<'_> {
    pub fn enters(&self) -> bool {
        matches!(self.number, op::FOLLOW..=op::INTO | op::WAIT)
    }

    /// Both operands are of the right kind.
    pub fn kinds(&self) -> bool {
        let (c, y) = (self.model.counts, self.y);
        let head_asked = matches!(self.number, op::INTO | op::WAIT);
        c.is_link(self.x) && (y == 0 || c.is_head(y) || (!head_asked && c.is_link(y)))
    }

    /// The set that x is in.
    fn from(&self) -> Option<usize> {
        self.model.set_of(self.x)
    }

    /// The set that y is or stands in.
    pub fn at(&self) -> Option<usize> {
        if self.model.counts.is_head(self.y) {
            Some(self.y as usize - 1)
        } else {
            self.model.set_of(self.y)
        }
    }

    fn is_full(&self, set: Option<usize>) -> bool {
        set.is_some_and(|s| self.model.sets[s].len() == MAX_MEMBERS)
    }

    /// How many other sets are full.
    fn full_beside(&self, set: Option<usize>) -> usize {
        (0..self.model.sets.len()).filter(|&s| Some(s) != set && self.is_full(Some(s))).count()
    }

    /// Refused with 10 by the sets' sizes alone: x comes from elsewhere, and there is no place beside y.
    pub fn too_many(&self) -> bool {
        self.enters() && self.kinds() && self.x != self.y && self.from() != self.at() && self.is_full(self.at())
    }

    fn alone(&self) -> bool {
        self.model.notices.len() == 1
    }

    fn links(&self) -> usize {
        (self.model.counts.total() - self.model.counts.heads) as usize
    }

    /// How many members of the set at y are processes.
    fn processes(&self) -> usize {
        let set = self.at().map_or(&[][..], |s| &self.model.sets[s]);
        set.iter().filter(|&&x| self.model.counts.is_process(x)).count()
    }

    /// Where y stands in its set.
    pub fn place(&self) -> &'static str {
        let set = self.at().map_or(&[][..], |s| &self.model.sets[s]);
        match set.iter().position(|&member| member == self.y) {
            None => "its head",
            Some(0) => "its first",
            Some(at) if at + 1 == set.len() => "its last",
            Some(_) => "one between",
        }
    }

    pub fn source(&self) -> &'static str {
        match self.from() {
            None => "no set",
            from if from == self.at() => "the set itself",
            Some(_) => "another set",
        }
    }
}

/// A name, and whether a call meets it.
type Way = (&'static str, fn(&Look) -> bool);

/// What there is to meet.
pub const WAYS: &[Way] = &[
    ("10 for a move from a full set to another", |l| l.code == 10 && l.is_full(l.from())),
    ("a move within one of two full sets", |l| within(l) && l.full_beside(l.at()) > 0),
    ("beside itself in a full set", |l| l.code == 0 && l.enters() && l.x == l.y && l.is_full(l.from())),
    ("from a full set beside a link in no set", |l| left(l) && l.y != 0 && l.at().is_none() && l.x != l.y),
    ("from a full set to none", |l| left(l) && l.y == 0),
    ("from a full set to one that is not", |l| left(l) && l.at().is_some() && l.at() != l.from()),
    ("3 for follow, x being no link", |l| l.number == op::FOLLOW && no_link(l)),
    ("3 for precede, x being no link", |l| l.number == op::PRECEDE && no_link(l)),
    ("3 for into, x being no link", |l| l.number == op::INTO && no_link(l)),
    ("3 for into, y being a member", |l| l.number == op::INTO && no_head(l)),
    ("3 for wait, y being a member", |l| l.number == op::WAIT && no_head(l)),
    ("10 for wait with the last notice", |l| l.code == 10 && l.number == op::WAIT && l.alone()),
    ("10 for wait with more notices", |l| l.code == 10 && l.number == op::WAIT && !l.alone()),
    ("4 for wait by a member of the full set", |l| {
        l.code == 4 && l.number == op::WAIT && l.is_full(l.at()) && l.from() == l.at()
    }),
    ("wait by a member of the full set", |l| l.number == op::WAIT && within(l)),
    ("wait on none by a member of a full set", |l| l.number == op::WAIT && left(l) && l.y == 0),
    ("4 for wait on none by a member of a full set", |l| {
        l.code == 4 && l.number == op::WAIT && l.y == 0 && l.is_full(l.from())
    }),
    ("511 links in one set, one of them moved", |l| l.links() == 511 && l.code == 0 && all_in_one(l)),
    ("512 links in one set, one of them moved", |l| l.links() == 512 && within(l)),
    ("10 for the 513th link", |l| l.links() == 513 && l.code == 10),
    ("10 with one head", |l| l.code == 10 && l.model.counts.heads == 1),
    ("10 with 64 heads", |l| l.code == 10 && l.model.counts.heads == MAX_HEADS),
    ("10 at head 1 of many", |l| l.code == 10 && l.model.counts.heads > 1 && l.at() == Some(0)),
    ("10 at the last head of many", |l| {
        l.code == 10 && l.model.counts.heads > 1 && l.at() == Some(l.model.sets.len() - 1)
    }),
    ("10 at a head between", |l| l.code == 10 && l.at().is_some_and(|s| s > 0 && s + 1 < l.model.sets.len())),
    ("10 at a set of processes", |l| l.code == 10 && l.processes() == MAX_MEMBERS),
    ("10 at a set of plain links", |l| l.code == 10 && l.processes() == 0),
    ("10 at a set of both", |l| l.code == 10 && (100..400).contains(&l.processes())),
    ("10 for a process", |l| l.code == 10 && l.number != op::WAIT && l.model.counts.is_process(l.x)),
    ("10 for a plain link", |l| l.code == 10 && !l.model.counts.is_process(l.x)),
    ("10 where 4,032 links are in sets", |l| l.code == 10 && l.model.sets.iter().map(Vec::len).sum::<usize>() == LINKS),
    ("out of a full set", |l| l.number == op::OUT && l.code == 0 && l.is_full(l.from())),
    ("clear of a full set", |l| l.number == op::CLEAR && l.code == 0 && l.model.members(l.x).len() == MAX_MEMBERS),
    ("cardinal of a full set", |l| {
        l.number == op::CARDINAL && l.code == 0 && l.model.members(l.x).len() == MAX_MEMBERS
    }),
];

/// A move within a full set.
fn within(l: &Look) -> bool {
    l.code == 0 && l.enters() && l.x != l.y && l.from() == l.at() && l.is_full(l.at())
}

/// A link leaves a full set.
fn left(l: &Look) -> bool {
    l.code == 0 && l.enters() && l.is_full(l.from()) && l.from() != l.at()
}

/// No link is to enter a full set.
fn no_link(l: &Look) -> bool {
    l.code == 3 && !l.model.counts.is_link(l.x) && l.is_full(l.at())
}

/// A member of a full set stands where a head is asked for.
fn no_head(l: &Look) -> bool {
    l.code == 3 && l.model.counts.is_link(l.x) && l.model.counts.is_link(l.y) && l.is_full(l.at())
}

fn all_in_one(l: &Look) -> bool {
    l.enters() && l.from() == l.at() && l.at().is_some_and(|s| l.model.sets[s].len() == l.links())
}
