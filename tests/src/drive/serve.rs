//! The simulator in place of the programs under test, to try the drivers themselves.

use crate::expected::{expected, known};
use crate::protocol::Request;
use crate::sim::print;
use std::io::{self, Read, Write};

fn input() -> io::Result<Vec<u8>> {
    let mut bytes = Vec::new();
    io::stdin().lock().read_to_end(&mut bytes)?;
    Ok(bytes)
}

/// Answers requests until the input ends; an unknown call or a request cut short ends it too.
pub fn requests() -> io::Result<()> {
    let bytes = input()?;
    let mut rest = &bytes[..];
    let mut out = io::stdout().lock();
    while let Some((request, more)) = Request::decode(rest) {
        if !known(request.call.number) {
            break;
        }
        let mut response = Vec::new();
        expected(&request).encode(&mut response);
        out.write_all(&response)?;
        rest = more;
    }
    out.flush()
}

/// Prints the run of the sheet on standard input.
pub fn sheet() -> io::Result<()> {
    let bytes = input()?;
    io::stdout().lock().write_all(print::text(&bytes).as_bytes())
}
