//! What the operands of a record mean, read on the lists before anything moves.

use super::call::number;
use super::model::Model;
use super::sheet::CURRENT;
use crate::mutations::{on, M};

/// The field of a record that an operand stands in.
#[derive(Clone, Copy, PartialEq, Eq)]
pub enum Field {
    X,
    Y,
}

impl Model {
    /// A linkage or none as it stands there, current, or one of the members of head h.
    pub fn operand(&self, operation: u8, field: Field, value: u32) -> u32 {
        match value.checked_sub(CURRENT) {
            Some(0) => self.current(),
            Some(h) if h > self.counts.heads => value, // only a misreading comes here
            Some(h) if means_process(u32::from(operation), field) => self.first_process_of(h),
            Some(h) => self.first_of(h),
            None => value,
        }
    }

    /// The first member of head h that is a process, or none.
    fn first_process_of(&self, head: u32) -> u32 {
        let queue = &self.members(head)[..self.looked_at(head)];
        let mut processes = queue.iter().copied().filter(|&m| self.counts.is_process(m) && !self.passed_over(m));
        let found = if on(M::LastProcess) { processes.next_back() } else { processes.next() };
        found.unwrap_or_else(|| self.without_process(head))
    }

    /// How many members the search comes to: all of them, unless misread.
    fn looked_at(&self, head: u32) -> usize {
        let members = self.members(head).len();
        if on(M::SearchOfTwo) {
            members.min(2)
        } else if on(M::SearchOfMany) {
            members.min(256)
        } else if on(M::SearchOf511) {
            members.min(511)
        } else {
            members
        }
    }

    /// Processes that a misreading does not take for one.
    fn passed_over(&self, process: u32) -> bool {
        on(M::CurrentPassed) && process == self.current()
            || on(M::MainPassed) && process == self.counts.main()
            || on(M::HighestPassed) && process == self.counts.process(self.counts.processes)
            || on(M::TerminatedPassed) && self.is_terminated(process)
            || on(M::LivePassed) && self.notice_of(process).is_some()
    }

    /// None where no process is found; misread, a linkage of the wrong kind.
    fn without_process(&self, head: u32) -> u32 {
        let empty = self.members(head).is_empty();
        let refused = if empty { on(M::EmptyQueueRefused) } else { on(M::LinksOnlyRefused) };
        if refused {
            head
        } else {
            0
        }
    }
}

/// 65,536 + h: in operations 9, 10 and 11 the first process of head h, elsewhere its first member.
fn means_process(operation: u32, field: Field) -> bool {
    match operation {
        number::CANCEL | number::ACTIVATE | number::REACTIVATE => !as_before(operation, field),
        _ => elsewhere_too(operation, field),
    }
}

/// The misreadings that take the first member in 9, 10 or 11.
fn as_before(operation: u32, field: Field) -> bool {
    on(M::FirstMemberAsBefore)
        || on(M::CancelAsBefore) && operation == number::CANCEL
        || on(M::ActivateAsBefore) && operation == number::ACTIVATE
        || on(M::ReactivateAsBefore) && operation == number::REACTIVATE
        || on(M::XAsBefore) && field == Field::X
        || on(M::YAsBefore) && field == Field::Y
}

/// The misreadings that take the first process in other operations.
fn elsewhere_too(operation: u32, field: Field) -> bool {
    let head_asked = matches!(operation, number::INTO | number::WAIT);
    on(M::ProcessEverywhere)
        || on(M::ProcessMoved) && field == Field::X
        || on(M::ProcessBeside) && field == Field::Y && !head_asked
        || on(M::ProcessForHead) && field == Field::Y && head_asked
}
