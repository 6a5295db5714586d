//! Lists of run calls over one sheet, each going on from what the last one left.

use super::{buffers, limit_sheets, queue_cases, queues, runs, sheets, special};
use crate::protocol::{Lent, Request};
use crate::rng::Rng;
use crate::sim::call::number;
use crate::sim::run::{Run, LINE, MAX_TRACE};
use crate::sim::sheet::Sheet;

/// So many pieces are cut from the run of a queue.
const PIECES: usize = 40;

/// A sheet and its run, so far.
pub struct RunList {
    pub sheet: Sheet,
    /// What the last call returned.
    lent: Lent,
    /// The plain machine, fed the sheet and the buffers' lengths and nothing of the tables.
    pub machine: Run,
    /// A machine that is never cut.
    pub uncut: Run,
    /// The lengths of the buffers to come, the next one last.
    buffers: Vec<usize>,
}

impl RunList {
    fn new(sheet: Sheet, buffers: Vec<usize>) -> RunList {
        let run = Run::fresh(&sheet);
        RunList { lent: runs::lent(&run), machine: run.clone(), uncut: run, sheet, buffers }
    }

    /// With buffers of any lengths.
    fn any(rng: &mut Rng, sheet: Sheet) -> RunList {
        let mut buffers: Vec<usize> = (0..rng.between(2, 13)).map(|_| runs::buffer(rng)).collect();
        buffers.push(runs::first_buffer(rng, &sheet));
        RunList::new(sheet, buffers)
    }

    /// Some calls are still to be made.
    pub fn goes_on(&self) -> bool {
        !self.buffers.is_empty()
    }

    /// The next call, with a trace buffer of its own.
    pub fn next(&mut self, rng: &mut Rng) -> Request {
        let length = self.buffers.pop().unwrap_or(0);
        let lent = Lent { trace: rng.bytes(length), ..self.lent.clone() };
        let mut request = runs::request(rng, self.sheet.encode(), self.sheet.counts, lent);
        // every other one with room for just one line is made by a turn
        if length / LINE == 1 && self.buffers.len() % 2 == 0 {
            request.call.number = number::TURN;
        }
        request
    }

    /// The next call goes on from this.
    pub fn go_on_from(&mut self, returned: &Lent) {
        self.lent = Lent { trace: Vec::new(), ..returned.clone() };
    }
}

/// Three calls with each buffer where one line more comes to fit; then the queues, and those that come to their limit.
pub fn sweep() -> Vec<RunList> {
    let lengths = buffers::all().into_iter().map(|(sheet, length)| RunList::new(sheet, vec![length; 3]));
    lengths.chain(queue_lists()).chain(limit_lists()).collect()
}

/// Each queue built by hand in one call, and cut into pieces of a few lines once it is filled.
pub fn queue_lists() -> Vec<RunList> {
    let mut lists = Vec::new();
    for sheet in queue_cases::all() {
        let filled = LINE * queues::filling(&sheet);
        let pieces = [5, 2, 1, 3, 8].map(|lines| LINE * lines).into_iter().cycle().take(PIECES);
        let cut = [MAX_TRACE].into_iter().chain(pieces).chain([filled]).collect();
        lists.extend([RunList::new(sheet.clone(), vec![MAX_TRACE]), RunList::new(sheet, cut)]);
    }
    lists
}

/// Each sheet that comes to the limit in one call, and cut into pieces of a few lines once a queue has 500 members. After its end come
/// calls with a trace that is too long, with two that have no room for a line, and with one that has.
pub fn limit_lists() -> Vec<RunList> {
    let mut lists = Vec::new();
    for sheet in limit_sheets::all() {
        let nearly = LINE * limit_sheets::steps_to(&sheet, 500);
        let pieces = [1, 2, 5, 1, 3].map(|lines| LINE * lines).into_iter().cycle().take(PIECES);
        let after = [LINE, 0, LINE - 1, MAX_TRACE + 1, MAX_TRACE];
        let cut = after.into_iter().chain(pieces).chain([nearly]).collect();
        lists.extend([RunList::new(sheet.clone(), vec![MAX_TRACE]), RunList::new(sheet, cut)]);
    }
    lists
}

/// So many lists; the first ones of all are over the sheets built by hand.
pub fn lists(rng: &mut Rng, count: u64, first: bool) -> Vec<RunList> {
    let mut sheets = if first { special::all() } else { Vec::new() };
    while (sheets.len() as u64) < count {
        sheets.push(sheets::any(rng));
    }
    sheets.truncate(count as usize);
    sheets.into_iter().map(|sheet| RunList::any(rng, sheet)).collect()
}
