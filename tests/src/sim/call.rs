//! One call on a model, by its number, with the operands as the caller gives them.

use super::activation::Activation;
use super::model::{Model, Refusal};
use super::sets::Side;

/// Operation numbers shared by direct calls and records.
pub mod number {
    pub const JUDGE: u32 = 0;
    pub const OUT: u32 = 1;
    pub const FOLLOW: u32 = 2;
    pub const PRECEDE: u32 = 3;
    pub const INTO: u32 = 4;
    pub const CLEAR: u32 = 5;
    pub const HOLD: u32 = 6;
    pub const PASSIVATE: u32 = 7;
    pub const WAIT: u32 = 8;
    pub const CANCEL: u32 = 9;
    pub const ACTIVATE: u32 = 10;
    pub const REACTIVATE: u32 = 11;
    pub const EMPTY: u32 = 12;
    pub const ACCUM: u32 = 13;
    pub const FIRST: u32 = 20;
    pub const LAST: u32 = 21;
    pub const SUC: u32 = 22;
    pub const PRED: u32 = 23;
    pub const CARDINAL: u32 = 24;
    pub const CURRENT: u32 = 25;
    pub const TIME: u32 = 26;
    pub const IDLE: u32 = 27;
    pub const TERMINATED: u32 = 28;
    pub const EVTIME: u32 = 29;
    pub const NEXTEV: u32 = 30;
    pub const ACCUM_ALONE: u32 = 31;
    pub const FINISH: u32 = 32;
    /// As `ACCUM` and `ACCUM_ALONE`, but on the words in place and by value where those lend structs.
    pub const ACCUM_IN_PLACE: u32 = 35;
    pub const ACCUM_BY_VALUE: u32 = 36;
    pub const FRESH_MODEL: u32 = 37;
    pub const RUN: u32 = 40;
    pub const CHECK: u32 = 41;
    pub const FRESH: u32 = 42;
    /// As `RUN`, but with room for just one line it is made by one turn.
    pub const TURN: u32 = 43;
}

/// A call with its operands; those that the call does not use are not looked at.
#[derive(Clone, Copy, Debug, Default, PartialEq, Eq)]
pub struct Call {
    pub number: u32,
    pub clause: u32,
    pub x: u32,
    pub y: u32,
    pub t: i64,
}

impl Call {
    pub fn new(number: u32) -> Call {
        Call { number, ..Call::default() }
    }
}

impl Model {
    /// Makes a call on sets or axis. The answer is 0 for calls that have none.
    pub fn make(&mut self, call: Call) -> Result<u64, Refusal> {
        match call.number {
            number::FIRST..=number::NEXTEV | number::EMPTY => self.query(call),
            number::OUT..=number::CLEAR | number::WAIT => self.leave(call).map(u64::from),
            _ => self.schedule(call).map(|()| 0),
        }
    }

    /// The calls after which links may be in other sets. They answer the head that was left, clear how many left it.
    fn leave(&mut self, call: Call) -> Result<u32, Refusal> {
        let Call { x, y, .. } = call;
        match call.number {
            number::OUT => self.out(x),
            number::FOLLOW => self.beside(x, y, Side::Behind),
            number::PRECEDE => self.beside(x, y, Side::InFront),
            number::INTO => self.enter(x, y),
            number::CLEAR => self.clear(x),
            _ => self.wait(y),
        }
    }

    fn schedule(&mut self, call: Call) -> Result<(), Refusal> {
        let Call { x, y, t, .. } = call;
        match call.number {
            number::HOLD => self.hold(t),
            number::PASSIVATE => self.passivate(),
            number::CANCEL => self.cancel(x),
            number::FINISH => self.finish(),
            _ => {
                let again = call.number == number::REACTIVATE;
                self.activation(Activation { again, clause: call.clause, x, y, t })
            }
        }
    }

    fn query(&self, call: Call) -> Result<u64, Refusal> {
        let x = call.x;
        match call.number {
            number::EMPTY => self.empty(x).map(u64::from),
            number::FIRST => self.first(x).map(u64::from),
            number::LAST => self.last(x).map(u64::from),
            number::SUC => self.suc(x).map(u64::from),
            number::PRED => self.pred(x).map(u64::from),
            number::CARDINAL => self.cardinal(x).map(u64::from),
            number::CURRENT => Ok(u64::from(self.current())),
            number::TIME => Ok(self.time()),
            number::IDLE => self.idle(x).map(u64::from),
            number::TERMINATED => self.terminated(x).map(u64::from),
            number::EVTIME => self.evtime(x),
            _ => self.nextev(x).map(u64::from),
        }
    }
}
