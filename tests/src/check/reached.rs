//! With which queues the run lists make cancel, activate and reactivate by 65,536 + h.

use crate::drive::tally::Tally;
use crate::expected::expected;
use crate::gen::queue_cases::forms;
use crate::gen::run_lists::{queue_lists, RunList};
use crate::protocol::Response;
use crate::rng::Rng;
use crate::sim::call::number as op;
use crate::sim::model::{Model, MAX_HEADS};
use crate::sim::run::Run;
use crate::sim::sheet::{Sheet, CURRENT};
use std::collections::BTreeMap;

/// Operation, clause, and whether the operand is x or y.
type Form = (u32, u8, char);

/// An operand 65,536 + h just before its step; `continued` in a call that is not the first of its list.
struct Look<'a> {
    model: &'a Model,
    head: u32,
    continued: bool,
}

impl Look<'_> {
    fn queue(&self) -> &[u32] {
        self.model.members(self.head)
    }

    /// How many links stand in front of the first process; none where there is no process.
    fn passed(&self) -> Option<usize> {
        self.queue().iter().position(|&member| self.model.counts.is_process(member))
    }

    fn found(&self) -> Option<u32> {
        self.passed().map(|at| self.queue()[at])
    }

    fn processes(&self) -> usize {
        self.queue().iter().filter(|&&member| self.model.counts.is_process(member)).count()
    }

    fn current(&self) -> bool {
        self.found() == Some(self.model.current())
    }
}

/// A name, and whether an operand meets it.
type Way = (&'static str, fn(&Look) -> bool);

/// What there is to meet.
const WAYS: [Way; 12] = [
    ("an empty queue", |l| l.queue().is_empty()),
    ("links only", |l| !l.queue().is_empty() && l.processes() == 0),
    ("processes only", |l| l.processes() > 0 && l.processes() == l.queue().len()),
    ("a process before a link", |l| l.passed() == Some(0) && l.processes() < l.queue().len()),
    ("a process behind a link", |l| l.passed() >= Some(1)),
    ("a process behind 100 links", |l| l.passed() >= Some(100)),
    ("current first", |l| l.current() && l.passed() == Some(0)),
    ("current behind a link", |l| l.current() && l.passed() >= Some(1)),
    ("a terminated process", |l| l.found().is_some_and(|process| l.model.is_terminated(process))),
    ("the queue of head 64", |l| l.head == MAX_HEADS),
    ("the first call of a run", |l| !l.continued),
    ("a call that continues a run", |l| l.continued),
];

/// How often each form has met each of them.
#[derive(Default)]
pub struct Reached {
    met: BTreeMap<Form, [u32; WAYS.len()]>,
}

impl Reached {
    /// Looks at the operands of the step that a run is about to make.
    fn look(&mut self, run: &Run, sheet: &Sheet, continued: bool) {
        if run.at() == 0 {
            return;
        }
        let r = sheet.record(run.at());
        let operation = u32::from(r.operation);
        if !matches!(operation, op::CANCEL | op::ACTIVATE | op::REACTIVATE) {
            return;
        }
        for (field, value) in [('x', r.x), ('y', r.y)].into_iter().filter(|(_, value)| *value > CURRENT) {
            let look = Look { model: &run.model, head: value - CURRENT, continued };
            let row = self.met.entry((operation, r.clause, field)).or_default();
            row.iter_mut().zip(WAYS).for_each(|(count, (_, met))| *count += u32::from(met(&look)));
        }
    }

    /// Looks at the steps that a call has made.
    pub fn follow(&mut self, list: &mut RunList, response: &Response, continued: bool) {
        for _ in 0..response.lines {
            self.look(&list.uncut, &list.sheet, continued);
            let _ = list.uncut.turn(&list.sheet, usize::MAX);
        }
    }

    /// All forms together have met each of them.
    pub fn check_each(&self, tally: &mut Tally) {
        for (way, (name, _)) in WAYS.iter().enumerate() {
            let count: u32 = self.met.values().map(|row| row[way]).sum();
            println!("65,536 + h in 9, 10 and 11, {name}: {count}");
            tally.check(count > 0, &format!("random runs never meet {name}"));
        }
    }

    /// Each form has met each of them.
    fn check_all(&self, tally: &mut Tally) {
        for form in named_forms() {
            let row = self.met.get(&form).copied().unwrap_or_default();
            for (count, (name, _)) in row.iter().zip(WAYS) {
                tally.check(*count > 0, &format!("the queues built by hand never meet {form:?} with {name}"));
            }
        }
    }
}

/// x in every form, y under clauses 5 and 6.
fn named_forms() -> Vec<Form> {
    let x = forms().into_iter().map(|(operation, clause)| (operation, clause, 'x'));
    let y = forms().into_iter().filter(|(_, clause)| *clause >= 5).map(|(operation, clause)| (operation, clause, 'y'));
    x.chain(y).collect()
}

/// The queues built by hand, in whole runs and in pieces.
pub fn check(tally: &mut Tally) {
    let mut reached = Reached::default();
    let mut rng = Rng::new(1);
    for mut list in queue_lists() {
        let mut continued = false;
        while list.goes_on() {
            let response = expected(&list.next(&mut rng));
            list.go_on_from(&response.lent);
            reached.follow(&mut list, &response, continued);
            continued = true;
        }
    }
    reached.check_all(tally);
}
