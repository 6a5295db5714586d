//! The command line.

use crate::drive::child::Program;
use std::time::Duration;

pub const USAGE: &str = "\
usage:
  nodbrize_tests self [--seed S]              check the simulator and the generators themselves
  nodbrize_tests mutations [--seed S]         check that the streams find every listed misreading
  nodbrize_tests calls PATH [--count N] [--seed S] [--only LIST] [-- ARGS]
  nodbrize_tests runs PATH [--sheets N] [--seed S] [-- ARGS]
  nodbrize_tests print PATH [--sheets N] [--seed S] [-- ARGS]
  nodbrize_tests host PATH [--sheets N] [--seed S] [-- ARGS]
  nodbrize_tests sheets DESK [--sheets N] [--seed S]
  nodbrize_tests mistakes DESK CASES          try texts with mistakes, tests/desk/mistakes.txt
  nodbrize_tests ends DESK PRINTER [--sheets N] [--seed S]
  nodbrize_tests serve [--mutation K]         answer requests on standard input by the simulator
  nodbrize_tests show [--mutation K]          print the run of a sheet on standard input
PATH is the program under test: the calls program, for print the printing program, for host tests/host/serve.c;
it is started with ARGS. DESK is the desk's tool, PRINTER the printing program that it runs. LIST names calls like
0,1,20-30. Each start may take --timeout SECONDS, 300 if not given.";

/// What the command line asks for.
pub struct Options {
    pub command: String,
    pub program: Program,
    /// The second path, for a subcommand that takes two.
    pub second: String,
    pub count: u64,
    pub sheets: Option<u64>,
    pub seed: u64,
    pub only: Vec<u32>,
    pub mutation: usize,
}

impl Options {
    fn new(command: String) -> Options {
        let program = Program { path: String::new(), args: Vec::new(), timeout: Duration::from_secs(300) };
        let second = String::new();
        Options { command, program, second, count: 200_000, sheets: None, seed: 1, only: Vec::new(), mutation: 0 }
    }

    /// Reads the arguments; what follows -- goes to the program under test.
    pub fn read(args: impl Iterator<Item = String>) -> Result<Options, String> {
        let mut args = args;
        let mut options = Options::new(args.next().ok_or("no subcommand")?);
        while let Some(arg) = args.next() {
            match arg.as_str() {
                "--" => options.program.args = args.by_ref().collect(),
                option if option.starts_with("--") => {
                    let value = args.next().ok_or(format!("{option} without a value"))?;
                    options.set(option, &value)?;
                }
                _ if options.program.path.is_empty() => options.program.path = arg,
                _ if options.second.is_empty() && options.paths() == 2 => options.second = arg,
                _ => return Err(format!("one argument too many: {arg}")),
            }
        }
        Ok(options)
    }

    /// How many paths the subcommand takes.
    fn paths(&self) -> usize {
        match self.command.as_str() {
            "calls" | "runs" | "print" | "host" | "sheets" => 1,
            "mistakes" | "ends" => 2,
            _ => 0,
        }
    }

    /// The path that is not given, in words.
    pub fn missing(&self) -> Option<&'static str> {
        let paths = self.paths();
        if paths >= 1 && self.program.path.is_empty() {
            return Some("no program to test");
        }
        (paths == 2 && self.second.is_empty()).then_some("a second path is missing")
    }

    fn set(&mut self, option: &str, value: &str) -> Result<(), String> {
        match option {
            "--count" => self.count = number(value)?,
            "--sheets" => self.sheets = Some(number(value)?),
            "--seed" => self.seed = number(value)?,
            "--mutation" => self.mutation = number(value)? as usize,
            "--timeout" => self.program.timeout = Duration::from_secs(number(value)?),
            "--only" => self.only = numbers(value)?,
            _ => return Err(format!("no such option: {option}")),
        }
        Ok(())
    }
}

fn number(text: &str) -> Result<u64, String> {
    text.parse().map_err(|_| format!("not a number: {text}"))
}

/// A list like 0,1,20-30.
fn numbers(text: &str) -> Result<Vec<u32>, String> {
    let mut list = Vec::new();
    for part in text.split(',').filter(|part| !part.is_empty()) {
        let (low, high) = part.split_once('-').unwrap_or((part, part));
        list.extend(number(low)? as u32..=number(high)? as u32);
    }
    Ok(list)
}
