//! The C edge: sheets and trace buffers through a C program that lends them between guards, answers and
//! every trace byte compared with a fresh run of the simulator.

use super::child::Program;
use super::report::sheet_text;
use super::tally::Tally;
use crate::gen::{buffers, limit_sheets, queue_cases, runs, sheet_damage, sheets, special};
use crate::rng::Rng;
use crate::sim::run::{Run, MAX_TRACE};
use crate::sim::sheet::{self, Sheet};

/// Inputs for one start of the program.
const GROUP: u64 = 200;

/// A sheet's bytes and a trace buffer.
struct Input {
    sheet: Vec<u8>,
    trace: Vec<u8>,
}

/// Compares the answers to the sweep of buffers, the queues and those that come to their limit, then to so many inputs.
pub fn drive(program: &Program, count: u64, seed: u64) -> bool {
    let mut tally = Tally::new("host", 5_000);
    let mut rng = Rng::new(seed);
    let queues = queue_cases::all().into_iter().chain(limit_sheets::all()).map(|sheet| (sheet, MAX_TRACE));
    let sweep: Vec<Input> = buffers::all()
        .into_iter()
        .chain(queues)
        .map(|(sheet, length)| Input { sheet: sheet.encode(), trace: rng.bytes(length) })
        .collect();
    sweep.chunks(GROUP as usize).for_each(|inputs| group(program, inputs, &mut tally));
    let mut by_hand = special::all();
    let mut done = 0;
    while done < count && !tally.failed() {
        let some = GROUP.min(count - done);
        let inputs: Vec<Input> = (0..some).map(|_| input(&mut rng, by_hand.pop())).collect();
        done += some;
        group(program, &inputs, &mut tally);
    }
    tally.close()
}

/// A sheet built by hand, a random one, a damaged one, or random bytes; with any trace buffer.
fn input(rng: &mut Rng, by_hand: Option<Sheet>) -> Input {
    let (sheet, length) = match (by_hand, rng.below(20)) {
        (None, 0..=3) => {
            let sheet = sheets::any(rng);
            (sheet_damage::any(rng, sheet).1, runs::buffer(rng))
        }
        (None, 4) => {
            let length = rng.pick(&[0, 1, 15, 16, 17, 44, 1000]);
            (rng.bytes(length), runs::buffer(rng))
        }
        (by_hand, _) => {
            let sheet = by_hand.unwrap_or_else(|| sheets::any(rng));
            (sheet.encode(), runs::first_buffer(rng, &sheet))
        }
    };
    Input { sheet, trace: rng.bytes(length) }
}

fn group(program: &Program, inputs: &[Input], tally: &mut Tally) {
    let mut bytes = Vec::new();
    for input in inputs {
        bytes.extend((input.sheet.len() as u32).to_le_bytes());
        bytes.extend((input.trace.len() as u32).to_le_bytes());
        bytes.extend(&input.sheet);
        bytes.extend(&input.trace);
    }
    let output = match program.feed(bytes) {
        Ok(output) => output,
        Err(error) => return tally.fail(&error),
    };
    let mut rest = &output.bytes[..];
    for input in inputs {
        let wanted = answer(input);
        if !rest.starts_with(&wanted) {
            return tally.fail(&format!("{}another answer or trace", describe(input)));
        }
        rest = &rest[wanted.len()..];
        tally.pass();
    }
    if !rest.is_empty() || !output.success {
        tally.fail(&format!("{} bytes after the last answer, ended well: {}", rest.len(), output.success));
    }
}

/// The number, lines × 256 + code, and the trace.
fn answer(input: &Input) -> Vec<u8> {
    let mut trace = input.trace.clone();
    let number = match sheet::decode(&input.sheet) {
        Err(_) => 8,
        Ok(sheet) => {
            let (end, lines) = Run::fresh(&sheet).go_on(&sheet, &mut trace);
            u64::from(lines) * 256 + u64::from(end.code())
        }
    };
    let mut bytes = number.to_le_bytes().to_vec();
    bytes.extend(trace);
    bytes
}

fn describe(input: &Input) -> String {
    let lent = format!("a trace of {} bytes\n", input.trace.len());
    match sheet::decode(&input.sheet) {
        Ok(sheet) => format!("{}{lent}", sheet_text(&sheet)),
        Err(_) => format!("a sheet of {} bytes that is refused with 8\n{lent}", input.sheet.len()),
    }
}
