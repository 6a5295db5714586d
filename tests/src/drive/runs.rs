//! Lists of run calls. All lists of a group make their next call in one start of the program, and go on
//! from what it returned.

use super::child::Program;
use super::report::{describe, difference};
use super::tally::Tally;
use crate::expected::{expected, write_run};
use crate::gen::run_lists::{lists, sweep, RunList};
use crate::protocol::{Request, Response};
use crate::rng::Rng;
use crate::sim::run::LINE;

/// Lists of one group.
const GROUP: u64 = 100;

/// Compares the responses to lists of calls: the sweep of buffers, then so many sheets.
pub fn drive(program: &Program, sheets: u64, seed: u64) -> bool {
    let mut tally = Tally::new("runs", 5_000);
    let mut rng = Rng::new(seed);
    for group in sweep().chunks_mut(GROUP as usize) {
        follow(program, &mut rng, group, &mut tally);
    }
    let mut done = 0;
    while done < sheets && !tally.failed() {
        let mut group = lists(&mut rng, GROUP.min(sheets - done), done == 0);
        done += group.len() as u64;
        follow(program, &mut rng, &mut group, &mut tally);
    }
    tally.close()
}

/// All calls of a group of lists.
fn follow(program: &Program, rng: &mut Rng, group: &mut [RunList], tally: &mut Tally) {
    while !tally.failed() && group.iter().any(RunList::goes_on) {
        round(program, rng, group, tally);
    }
}

/// One call of every list that goes on.
fn round(program: &Program, rng: &mut Rng, group: &mut [RunList], tally: &mut Tally) {
    let mut bytes = Vec::new();
    let mut calls: Vec<(&mut RunList, Request)> = Vec::new();
    for list in group.iter_mut().filter(|list| list.goes_on()) {
        let request = list.next(rng);
        request.encode(&mut bytes);
        calls.push((list, request));
    }
    let output = match program.feed(bytes) {
        Ok(output) => output,
        Err(error) => return tally.fail(&error),
    };
    let mut rest = &output.bytes[..];
    for (list, request) in calls {
        let Some((got, more)) = Response::decode(rest, &request) else {
            return tally.fail(&format!("no whole response to\n{}", describe(&request, "")));
        };
        rest = more;
        if let Some(difference) = compare(list, &request, &got) {
            return tally.fail(&format!("{}{difference}", describe(&request, "")));
        }
        list.go_on_from(&got.lent);
        tally.pass();
    }
    if !rest.is_empty() || !output.success {
        tally.fail(&format!("{} bytes after the last response, ended well: {}", rest.len(), output.success));
    }
}

/// The response against the tables lent, against the plain machine, and against the machine never cut.
pub fn compare(list: &mut RunList, request: &Request, got: &Response) -> Option<String> {
    if let Some(difference) = difference(&expected(request), got) {
        return Some(format!("first difference: {difference}"));
    }
    if let Some(difference) = difference(&by_machine(list, request), got) {
        return Some(format!("first difference from the plain machine: {difference}"));
    }
    let cut = got.lent.trace.chunks_exact(LINE).take(got.lines as usize);
    let mut joined = cut.map(|line| match list.uncut.turn(&list.sheet, usize::MAX) {
        Ok(uncut) => uncut.bytes() == line,
        Err(_) => false,
    });
    let wrong = joined.position(|same| !same)?;
    Some(format!("line {wrong} is not that of a machine never cut"))
}

/// The response worked out on lists alone, from the sheet and the lengths of all buffers so far.
fn by_machine(list: &mut RunList, request: &Request) -> Response {
    let mut lent = request.lent.clone();
    let (end, lines) = list.machine.go_on(&list.sheet, &mut lent.trace);
    write_run(&list.machine, &mut lent);
    Response { code: end.code(), lines, answer: 0, lent }
}
