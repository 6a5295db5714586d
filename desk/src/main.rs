//! The planner's desk: texts of models read, checked and shown, and runs told in plain words.

mod commands;
mod files;
mod load;
mod map;
mod names;
mod nearest;
mod operations;
mod outcome;
mod replay;
mod report;
mod run;
mod schedule;
mod sheet;
mod show;
mod text;
mod why;

use outcome::{failure, Failure, MISUSED};
use std::process::ExitCode;

const USAGE: &str = "\
usage:
  ./sheet check TEXT           tells every mistake of a text: file:line:column: error: ..
  ./sheet build TEXT SHEET     writes the sheet of a text, and its map to SHEET.map
  ./sheet show SHEET           prints a sheet as a text, with the names of SHEET.map if it is there
  ./sheet map TEXT             prints the names of a text, and record, line and statement of each step
  ./sheet words                prints the statements of the language
Exit status: 0 done, 1 mistakes, 2 wrong use, 6 output lost. docs/SHEETS.md describes the language.
";

/// The commands of ./sheet, and two that ./run uses: is the model ready to be run, and run it by this engine.
fn main() -> ExitCode {
    let args: Vec<String> = std::env::args_os().skip(1).map(|arg| arg.to_string_lossy().into_owned()).collect();
    let args: Vec<&str> = args.iter().map(String::as_str).collect();
    let outcome = match args[..] {
        ["check", text] => commands::check(text),
        ["build", text, sheet] => commands::build(text, sheet),
        ["show", sheet] => commands::show(sheet),
        ["map", text] => commands::print_map(text),
        ["words"] => commands::words(),
        ["ready", model] => run::ready(model),
        ["run", engine, model] => run::run(engine, model, false),
        ["run", "--names", engine, model] => run::run(engine, model, true),
        ["-h" | "--help" | "help"] => outcome::print(USAGE),
        _ => Err(failure(MISUSED, USAGE)),
    };
    match outcome {
        Ok(()) => ExitCode::SUCCESS,
        Err(Failure { status, lines }) => {
            outcome::remark(&lines);
            ExitCode::from(status)
        }
    }
}
