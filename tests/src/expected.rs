//! The response that the engine must give to a request, worked out by the simulator.

use crate::mutations::{on, M};
use crate::protocol::{Lent, Request, Response};
use crate::sim::accum::{list_in_limits, update_numbered, MOST};
use crate::sim::call::number;
use crate::sim::model::{require, Counts, Model, Refusal};
use crate::sim::run::{Run, MAX_TRACE};
use crate::sim::sheet::{self, Sheet};
use crate::sim::tables;

/// Whether the calls program knows this call.
pub fn known(call: u32) -> bool {
    matches!(
        call,
        number::JUDGE..=number::ACCUM
            | number::FIRST..=number::FINISH
            | number::ACCUM_IN_PLACE..=number::FRESH_MODEL
            | number::RUN..=number::TURN
    )
}

/// Code, line count, answer and every word afterwards.
pub fn expected(request: &Request) -> Response {
    let mut lent = request.lent.clone();
    if request.call.number == number::CHECK {
        let (code, answer) = match sheet::decode(&request.sheet) {
            Ok(sheet) => (0, u64::from(sheet.size())),
            Err(refusal) => (refusal, 0),
        };
        return Response { code, lines: 0, answer, lent };
    }
    if matches!(request.call.number, number::RUN | number::TURN) {
        let (code, lines) = match run(request, &mut lent) {
            Ok(end) => end,
            Err(refusal) => (refusal, 0),
        };
        return Response { code, lines, answer: 0, lent };
    }
    if request.call.number == number::FRESH {
        let code = fresh(request, &mut lent).err().unwrap_or(0);
        return Response { code, lines: 0, answer: 0, lent };
    }
    if request.call.number == number::FRESH_MODEL {
        let code = fresh_model(request, &mut lent).err().unwrap_or(0);
        return Response { code, lines: 0, answer: 0, lent };
    }
    let (code, answer) = match direct(request, &mut lent) {
        Ok(answer) => (0, answer),
        Err(refusal) => (refusal, if on(M::RefusedTells) { head_of_x(request) } else { 0 }),
    };
    Response { code, lines: 0, answer, lent }
}

/// The head that a refused set call would have left.
fn head_of_x(request: &Request) -> u64 {
    let model = tables::decode(request.counts, &request.lent.tables);
    let moves = matches!(request.call.number, number::OUT..=number::INTO);
    model.ok().filter(|_| moves).map_or(0, |model| u64::from(model.head_of(request.call.x)))
}

/// A call on the tables themselves: 1 and 2 on the whole model, then the call on its lists.
fn direct(request: &Request, lent: &mut Lent) -> Result<u64, Refusal> {
    let call = request.call;
    let numbered = matches!(call.number, number::ACCUM | number::ACCUM_IN_PLACE);
    require(!numbered || list_in_limits(&lent.accums), 1)?;
    let mut model = model_of(call.number, request.counts, lent)?;
    match call.number {
        number::JUDGE => Ok(0),
        number::ACCUM | number::ACCUM_IN_PLACE => {
            update_numbered(&mut lent.accums, call.x, model.time(), call.t).map(|()| 0)
        }
        number::ACCUM_ALONE | number::ACCUM_BY_VALUE => {
            let alone = lent.accums.len().min(1);
            update_numbered(&mut lent.accums[..alone], 1, model.time(), call.t).map(|()| 0)
        }
        _ => {
            let answer = model.make(call);
            lent.tables = tables::encode(&model);
            answer
        }
    }
}

/// The model that is lent to a call; the misreadings let some calls take rings of any length.
fn model_of(call: u32, counts: Counts, lent: &Lent) -> Result<Model, Refusal> {
    let takes_any = match call {
        number::RUN | number::TURN => on(M::RunsTakeLong),
        number::EMPTY | number::FIRST..=number::NEXTEV => on(M::QueriesTakeLong),
        number::HOLD..=number::REACTIVATE | number::FINISH => on(M::AxisTakesLong),
        number::OUT..=number::CLEAR => on(M::SetsTakeLong),
        _ => false,
    };
    if takes_any {
        tables::decode_any(counts, &lent.tables)
    } else {
        tables::decode(counts, &lent.tables)
    }
}

/// A run over the lent trace: 8, 1, 2, then turns.
fn run(request: &Request, lent: &mut Lent) -> Result<(u32, u32), Refusal> {
    let sheet = sheet::decode(&request.sheet)?;
    let mut run = judge_run(&sheet, lent)?;
    let (end, lines) = run.go_on(&sheet, &mut lent.trace);
    write_run(&run, lent);
    Ok((end.code(), lines))
}

/// The tables of a fresh run: 8, then 1 where a length is another; what they held does not matter.
fn fresh(request: &Request, lent: &mut Lent) -> Result<(), Refusal> {
    let sheet = sheet::decode(&request.sheet)?;
    tables::judge_lengths(sheet.counts, &lent.tables)?;
    let places = sheet.counts.processes as usize + 1;
    require(lent.positions.len() == places && lent.accums.len() == MOST, 1)?;
    write_run(&Run::fresh(&sheet), lent);
    Ok(())
}

/// The tables of a fresh model: 1 where a count is outside its limit or a length is another; what they held does not matter.
fn fresh_model(request: &Request, lent: &mut Lent) -> Result<(), Refusal> {
    if on(M::FreshJudged) {
        tables::decode(request.counts, &lent.tables)?;
    }
    tables::judge_lengths(request.counts, &lent.tables)?;
    lent.tables = tables::encode(&Model::fresh(request.counts));
    Ok(())
}

/// The run that is lent, or refusal 1 or 2. Accumulators are not judged here.
fn judge_run(sheet: &Sheet, lent: &Lent) -> Result<Run, Refusal> {
    let places = sheet.counts.processes as usize + 1;
    let fit = lent.positions.len() == places && lent.accums.len() == MOST && lent.trace.len() <= MAX_TRACE;
    require(fit, 1)?;
    let model = model_of(number::RUN, sheet.counts, lent)?;
    let positions = lent.positions[0] == 0 && lent.positions.iter().all(|&p| p <= sheet.size());
    require(positions, 2)?;
    Ok(Run { model, positions: lent.positions[1..].to_vec(), accums: lent.accums.clone() })
}

/// Writes the run's tables, positions and accumulators.
pub fn write_run(run: &Run, lent: &mut Lent) {
    lent.tables = tables::encode(&run.model);
    lent.positions = [0].iter().chain(&run.positions).copied().collect();
    lent.accums.clone_from(&run.accums);
}
