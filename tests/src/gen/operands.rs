//! Operands of calls: mostly of the right kind, dense in ties and in repeated names, at times wild.

use crate::rng::Rng;
use crate::sim::call::{number, Call};
use crate::sim::model::{Model, LIMIT};

/// The kind of linkage that a call asks for.
#[derive(Clone, Copy)]
enum Kind {
    Head,
    Link,
    Linkage,
    Process,
}

/// How far operands and times may go.
#[derive(Clone, Copy, PartialEq, Eq)]
pub enum Manner {
    /// For growing a model: good operands, times close to those there.
    Tame,
    /// For testing: anything now and then.
    Wild,
}

/// A random call of this number on this model.
pub fn call(rng: &mut Rng, model: &Model, number: u32, manner: Manner) -> Call {
    let mut call = Call::new(number);
    if manner == Manner::Wild && rng.chance(15) {
        call = garbage(rng, number); // for the operands that the call does not use
    }
    let mut source = Source { rng, model, manner };
    match number {
        number::OUT => call.x = source.operand(Kind::Link, 4),
        number::FOLLOW | number::PRECEDE => source.pair(&mut call, Kind::Link, Kind::Linkage),
        number::INTO => source.pair(&mut call, Kind::Link, Kind::Head),
        number::CLEAR | number::EMPTY | number::FIRST | number::LAST | number::CARDINAL => {
            call.x = source.operand(Kind::Head, 4);
        }
        number::SUC | number::PRED => call.x = source.operand(Kind::Linkage, 4),
        number::HOLD => call.t = source.delay(),
        number::WAIT => call.y = source.operand(Kind::Head, 8),
        number::CANCEL => call.x = source.operand(Kind::Process, 8),
        number::ACTIVATE | number::REACTIVATE => source.activation(&mut call),
        number::IDLE | number::TERMINATED | number::EVTIME | number::NEXTEV => {
            call.x = source.operand(Kind::Process, 4);
        }
        _ => {}
    }
    call
}

fn garbage(rng: &mut Rng, number: u32) -> Call {
    let (clause, x, y) = (rng.next() as u32, rng.next() as u32, rng.between(0, 9));
    Call { number, clause, x, y, t: rng.next() as i64 }
}

struct Source<'a> {
    rng: &'a mut Rng,
    model: &'a Model,
    manner: Manner,
}

impl Source<'_> {
    fn pair(&mut self, call: &mut Call, x: Kind, y: Kind) {
        call.x = self.operand(x, 4);
        call.y = if self.rng.chance(8) { call.x } else { self.operand(y, 8) };
    }

    fn activation(&mut self, call: &mut Call) {
        call.clause = self.rng.between(0, 6);
        if self.manner == Manner::Wild && self.rng.chance(4) {
            call.clause = self.rng.pick(&[7, 7, 8, 8, 255, 256, 262, u32::MAX]);
        }
        let idle = call.number == number::ACTIVATE && self.rng.chance(50);
        call.x = if idle { self.idle() } else { self.operand(Kind::Process, 5) };
        match call.clause {
            5 | 6 if self.rng.chance(12) => call.y = call.x,
            5 | 6 => call.y = self.operand(Kind::Process, 8),
            2 | 4 => call.t = self.delay(),
            1 | 3 => call.t = self.tick(),
            _ => {}
        }
    }

    /// The kind asked for, or none so many times in a hundred, or in wild manner anything.
    fn operand(&mut self, kind: Kind, none: u64) -> u32 {
        if self.rng.chance(none) {
            return 0;
        }
        if self.manner == Manner::Wild && self.rng.chance(9) {
            return self.anything();
        }
        self.of_kind(kind)
    }

    /// Any number: each kind, just past the range, and what would be operands of a sheet.
    fn anything(&mut self) -> u32 {
        let n = self.model.counts.total();
        match self.rng.below(8) {
            0 => n + 1,
            1 => n + self.rng.between(1, 9),
            2 => 65_536 + self.rng.between(0, self.model.counts.heads + 1),
            3 => self.rng.next() as u32,
            4 => self.rng.pick(&[65_535, 1 << 31, u32::MAX, u32::MAX - 1]),
            _ => self.rng.between(0, n),
        }
    }

    fn of_kind(&mut self, kind: Kind) -> u32 {
        let c = self.model.counts;
        match kind {
            Kind::Head if c.heads == 0 => 0,
            Kind::Head => self.rng.between(1, c.heads),
            Kind::Process => self.process(),
            Kind::Linkage if self.rng.chance(25) => self.rng.between(1, c.total()),
            Kind::Link | Kind::Linkage => self.link(),
        }
    }

    /// A link, often one that is in a set.
    fn link(&mut self) -> u32 {
        let c = self.model.counts;
        if c.heads > 0 && self.rng.chance(50) {
            let set = &self.model.sets[self.rng.index(c.heads as usize)];
            if !set.is_empty() {
                return set[self.rng.index(set.len())];
            }
        }
        self.rng.between(c.heads + 1, c.total())
    }

    /// A process, often one with a notice, often current or main.
    fn process(&mut self) -> u32 {
        let (c, notices) = (self.model.counts, &self.model.notices);
        match self.rng.below(10) {
            0..=2 => notices[self.rng.index(notices.len())].process,
            3 => self.model.current(),
            4 => c.main(),
            _ => self.rng.between(c.heads + 1, c.heads + c.processes),
        }
    }

    /// A process that is idle, if one is soon found.
    fn idle(&mut self) -> u32 {
        let c = self.model.counts;
        let mut process = c.main();
        for _ in 0..4 {
            process = self.rng.between(c.heads + 1, c.heads + c.processes);
            if self.model.notice_of(process).is_none() {
                break;
            }
        }
        process
    }

    /// A time: mostly that of some notice or next to it, in wild manner also far out.
    fn tick(&mut self) -> i64 {
        let notices = &self.model.notices;
        let near = notices[self.rng.index(notices.len())].time as i64;
        let now = self.model.time() as i64;
        if self.manner == Manner::Wild && self.rng.chance(30) {
            return self.far();
        }
        let tick = match self.rng.below(10) {
            0..=4 => near,
            5 => near + 1,
            6 => near - 1,
            7 => now,
            _ => now + self.rng.below(5) as i64,
        };
        if self.manner == Manner::Tame {
            tick.min(LIMIT as i64)
        } else {
            tick
        }
    }

    /// The limits of time and of 64 bits, zero, below zero, anything.
    fn far(&mut self) -> i64 {
        let limit = LIMIT as i64;
        let some = self.rng.below(LIMIT) as i64;
        match self.rng.below(8) {
            0 | 1 => self.rng.pick(&[limit, limit, limit + 1, limit - 1]),
            2 => self.rng.pick(&[i64::MIN, i64::MAX, i64::MIN + 1, i64::MAX - limit]),
            3 => self.rng.pick(&[0, -1, 1]),
            4 => -some,
            5 => self.rng.next() as i64,
            _ => some,
        }
    }

    /// A length of time that leads to such a tick.
    fn delay(&mut self) -> i64 {
        if self.manner == Manner::Wild && self.rng.chance(10) {
            return self.far();
        }
        self.tick().saturating_sub(self.model.time() as i64)
    }
}
