//! A run of a sheet over a trace buffer: turns, steps, lines and ends.

use super::accum::{update_numbered, Accum, MOST};
use super::call::{number, Call};
use super::kept::Kept;
use super::model::{require, Model, Refusal};
use super::operand::Field;
use super::sheet::{Record, Sheet};
use crate::mutations::{on, M};

/// Bytes of one trace line.
pub const LINE: usize = 16;
/// The longest trace buffer, in bytes.
pub const MAX_TRACE: usize = 65_536;
/// The code of a full run.
pub const FULL: u32 = 200;

/// How a run ends.
#[derive(Clone, Copy, Debug, PartialEq, Eq)]
pub enum End {
    Finished,
    Full,
    Refused(Refusal),
}

impl End {
    pub fn code(self) -> u32 {
        match self {
            End::Finished => 0,
            End::Full => FULL,
            End::Refused(refusal) => refusal,
        }
    }
}

/// One line: time, process and record as they were before the step.
#[derive(Clone, Copy, Debug, PartialEq, Eq)]
pub struct Line {
    pub time: u64,
    pub process: u32,
    pub record: u32,
}

impl Line {
    pub fn bytes(self) -> [u8; LINE] {
        let mut out = [0; LINE];
        out[..8].copy_from_slice(&self.time.to_le_bytes());
        out[8..12].copy_from_slice(&self.process.to_le_bytes());
        out[12..].copy_from_slice(&self.record.to_le_bytes());
        out
    }
}

/// What a run keeps between calls.
#[derive(Clone, Debug, PartialEq, Eq)]
pub struct Run {
    pub model: Model,
    /// The record each process stands at, the p-th at p - 1.
    pub positions: Vec<u32>,
    pub accums: Vec<Accum>,
}

impl Run {
    /// The sheet's starts, the fresh model and zeros.
    pub fn fresh(sheet: &Sheet) -> Run {
        Run { model: Model::fresh(sheet.counts), positions: sheet.starts.clone(), accums: vec![Accum::default(); MOST] }
    }

    fn place(&self, process: u32) -> usize {
        self.model.counts.place(process) as usize - 1
    }

    /// The record where current stands.
    pub fn at(&self) -> u32 {
        self.model.notices.first().map_or(0, |n| self.positions[self.place(n.process)])
    }

    /// Main is current and at position 0.
    pub fn finished(&self) -> bool {
        let current = self.model.notices.first().map(|n| n.process);
        self.positions[0] == 0 && (current == Some(self.model.counts.main()) || on(M::MainAtZeroEnds))
    }

    /// One turn with so many trace bytes left: the line of a step, or the end.
    pub fn turn(&mut self, sheet: &Sheet, room: usize) -> Result<Line, End> {
        if self.model.notices.is_empty() {
            return Err(End::Refused(2)); // only a misreading comes here
        }
        let full = room < LINE + usize::from(on(M::LastByteSpared));
        if on(M::FullBeforeFinished) && full {
            return Err(End::Full);
        }
        if self.finished() {
            return Err(End::Finished);
        }
        if full && !(on(M::FullAfterRefused) && self.clone().step(sheet).is_err()) {
            return Err(End::Full);
        }
        self.step(sheet).map_err(End::Refused)
    }

    /// The record's call, or finish at position 0. A refused step changes nothing.
    fn step(&mut self, sheet: &Sheet) -> Result<Line, Refusal> {
        let before = Line { time: self.model.time(), process: self.model.current(), record: self.at() };
        let made = self.perform(sheet, before.record);
        if made.is_ok() || (on(M::RefusedStepMoves) && before.record != 0) {
            let moving = if on(M::NewCurrentMoves) { self.line_now(before).process } else { before.process };
            let place = self.place(moving);
            self.positions[place] = made.unwrap_or_else(|_| sheet.record(before.record).next);
        }
        made.map(|_| if on(M::LineAfterStep) { self.line_now(before) } else { before })
    }

    /// The line with time and process as they are now, for misreadings.
    fn line_now(&self, line: Line) -> Line {
        let now = self.model.notices.first();
        now.map_or(line, |n| Line { time: n.time, process: n.process, ..line })
    }

    /// Makes the call of a record; the answer is where the stepping process goes on.
    fn perform(&mut self, sheet: &Sheet, record: u32) -> Result<u32, Refusal> {
        if record == 0 {
            return self.model.finish().map(|()| 0);
        }
        let r = sheet.record(record);
        match u32::from(r.operation) {
            number::EMPTY => {
                let empty = self.model.empty(self.model.operand(r.operation, Field::X, r.x))?;
                Ok(if empty != on(M::BranchTurned) { r.y } else { r.next })
            }
            number::ACCUM => {
                let time = self.model.time();
                update_numbered(&mut self.accums, r.x, time, r.t).map(|()| r.next)
            }
            _ => {
                let before = self.model.kept.is_some().then(|| self.model.sets.clone()); // only for a misreading
                self.call(r)?;
                if let (Some(before), Some(kept)) = (before, &mut self.model.kept) {
                    kept.follow(u32::from(r.operation), &before, &self.model.sets);
                }
                Ok(r.next)
            }
        }
    }

    /// Operands are resolved before anything moves.
    fn call(&mut self, r: Record) -> Result<(), Refusal> {
        let x = self.model.operand(r.operation, Field::X, r.x);
        let mut y = self.model.operand(r.operation, Field::Y, r.y);
        if on(M::FirstReadLate) && (2..=4).contains(&r.operation) && self.model.counts.is_link(x) {
            let mut later = self.model.clone();
            later.unlink(x);
            y = later.operand(r.operation, Field::Y, r.y);
        }
        let call = Call { number: u32::from(r.operation), clause: u32::from(r.clause), x, y, t: r.t };
        self.model.make(call).map(|_| ())
    }

    /// Goes on over one trace buffer. Gives the end and the number of lines.
    pub fn go_on(&mut self, sheet: &Sheet, trace: &mut [u8]) -> (End, u32) {
        if let Err(refusal) = self.judge_entry(trace.len()) {
            return (End::Refused(refusal), 0);
        }
        self.model.kept = Kept::begin(&self.model);
        let ended = self.turns(sheet, trace);
        self.model.kept = None;
        ended
    }

    fn turns(&mut self, sheet: &Sheet, trace: &mut [u8]) -> (End, u32) {
        let mut lines = 0;
        loop {
            let at = LINE * lines as usize;
            match self.turn(sheet, trace.len() - at) {
                Ok(line) => trace[at..at + LINE].copy_from_slice(&line.bytes()),
                Err(End::Full) if on(M::PartLineCounted) && at < trace.len() => return (End::Full, lines + 1),
                Err(end) => return (end, lines),
            }
            lines += 1;
        }
    }

    /// A trace above its limit is refused with 1 and takes no turn.
    fn judge_entry(&self, trace: usize) -> Result<(), Refusal> {
        require(trace <= MAX_TRACE - usize::from(on(M::TraceLimitExcluded)), 1)?;
        let time = self.model.time();
        require(!on(M::AccumsAtEntry) || self.accums.iter().all(|a| a.as_required(time)), 7)
    }
}
