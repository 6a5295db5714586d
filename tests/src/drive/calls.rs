//! Single calls: batches of requests, every response compared word by word.

use super::child::Program;
use super::report::{describe, difference};
use super::tally::Tally;
use crate::expected::{expected, known};
use crate::gen::stream::Stream;
use crate::gen::Case;
use crate::protocol::{Response, REQUEST_HEAD};
use crate::rng::Rng;

/// Requests of one start of the program: at most so many, and about so many bytes.
const BATCH: usize = 2_000;
const BATCH_BYTES: usize = 8_000_000;

/// Sends `count` requests and compares every response.
pub fn drive(program: &Program, count: u64, seed: u64, only: &[u32]) -> bool {
    let mut tally = Tally::new("calls", 20_000);
    let mut stream = Stream::new(seed, only);
    let mut rng = Rng::new(seed ^ 1);
    if let Some(call) = only.iter().find(|call| !known(**call)) {
        tally.fail(&format!("no such call: {call}"));
    }
    let mut sent = 0;
    while sent < count && !tally.failed() {
        let (cases, mut bytes) = batch(&mut stream, (count - sent) as usize);
        sent += cases.len() as u64;
        let ending = rng.chance(5).then(|| broken_end(&mut rng, &mut bytes));
        send(program, &cases, bytes, ending, &mut tally);
    }
    tally.close()
}

/// The next requests and their bytes.
fn batch(stream: &mut Stream, most: usize) -> (Vec<Case>, Vec<u8>) {
    let (mut cases, mut bytes) = (Vec::new(), Vec::new());
    while cases.len() < most.min(BATCH) && bytes.len() < BATCH_BYTES {
        let case = stream.next();
        case.request.encode(&mut bytes);
        cases.push(case);
    }
    (cases, bytes)
}

/// Adds a request that ends the program: of an unknown call, past all sizes, or cut short.
fn broken_end(rng: &mut Rng, bytes: &mut Vec<u8>) -> &'static str {
    let mut last = Vec::new();
    let mut stream = Stream::new(rng.next(), &[1]);
    stream.next().request.encode(&mut last);
    match rng.below(4) {
        0 => {
            let good = last.clone(); // not to be answered any more
            last[..4].copy_from_slice(&u32::MAX.to_le_bytes());
            bytes.extend_from_slice(&last);
            bytes.extend_from_slice(&good);
            "after an unknown call"
        }
        1 => {
            last[40..44].copy_from_slice(&u32::MAX.to_le_bytes());
            bytes.extend_from_slice(&last);
            "after a length past all sizes"
        }
        2 => {
            bytes.extend_from_slice(&last[..rng.index(REQUEST_HEAD - 1) + 1]);
            "after a request cut short in its fields"
        }
        _ => {
            bytes.extend_from_slice(&last[..last.len() - 1]);
            "after a request cut short in its contents"
        }
    }
}

/// One start of the program. With a broken end it must still have answered all before.
fn send(program: &Program, cases: &[Case], bytes: Vec<u8>, ending: Option<&'static str>, tally: &mut Tally) {
    let output = match program.feed(bytes) {
        Ok(output) => output,
        Err(error) => return tally.fail(&error),
    };
    let mut rest = &output.bytes[..];
    for case in cases {
        let Some((got, more)) = Response::decode(rest, &case.request) else {
            return tally.fail(&format!("no whole response to\n{}", describe(&case.request, case.note)));
        };
        rest = more;
        if let Some(difference) = difference(&expected(&case.request), &got) {
            return tally.fail(&format!("{}first difference: {difference}", describe(&case.request, case.note)));
        }
        tally.pass();
    }
    match ending {
        Some(ending) => tally.check(rest.is_empty(), &format!("{} bytes {ending}", rest.len())),
        None if !rest.is_empty() => tally.fail(&format!("{} bytes after the last response", rest.len())),
        None if !output.success => tally.fail("the program did not end well after its input ended"),
        None => {}
    }
}
