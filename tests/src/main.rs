//! Tests of a Simula 67 simulation engine by a plain list simulator: single calls, lists of runs, the
//! printing program and the C edge, each compared word for word; and of the desk, whose texts must build the
//! sheets that they show.

mod check;
mod drive;
mod expected;
mod gen;
mod mutations;
mod options;
mod protocol;
mod rng;
mod sim;

use options::{Options, USAGE};
use std::process::ExitCode;

fn main() -> ExitCode {
    let options = match Options::read(std::env::args().skip(1)) {
        Ok(options) => options,
        Err(error) => return misused(&error),
    };
    if let Some(missing) = options.missing() {
        return misused(missing);
    }
    match perform(&options) {
        Some(true) => ExitCode::SUCCESS,
        Some(false) => ExitCode::FAILURE,
        None => misused(&format!("no such subcommand: {}", options.command)),
    }
}

fn misused(error: &str) -> ExitCode {
    eprintln!("{error}\n{USAGE}");
    ExitCode::from(2)
}

/// Whether all went well; none for a subcommand that does not exist.
fn perform(options: &Options) -> Option<bool> {
    let (program, seed) = (&options.program, options.seed);
    let passed = match options.command.as_str() {
        "self" => check::all(seed),
        "mutations" => check::catches::all(seed),
        "calls" => drive::calls::drive(program, options.count, seed, &options.only),
        "runs" => drive::runs::drive(program, options.sheets.unwrap_or(2_000), seed),
        "print" => drive::print::drive(program, options.sheets.unwrap_or(400), seed),
        "host" => drive::host::drive(program, options.sheets.unwrap_or(5_000), seed),
        "sheets" => drive::sheets::drive(program, options.sheets.unwrap_or(2_000), seed),
        "mistakes" => drive::mistakes::drive(program, &options.second),
        "ends" => drive::ends::drive(program, &options.second, options.sheets.unwrap_or(400), seed),
        "serve" => {
            mutations::switch(options.mutation);
            drive::serve::requests().is_ok()
        }
        "show" => {
            mutations::switch(options.mutation);
            drive::serve::sheet().is_ok()
        }
        _ => return None,
    };
    Some(passed)
}
