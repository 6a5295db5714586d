//! Texts: a model in words, read into a sheet and its map.

mod body;
mod closing;
mod declare;
mod expect;
mod flow;
mod header;
mod hints;
mod judge;
mod labels;
mod lex;
mod lists;
mod operand;
mod outline;
mod range;
mod statement;
mod token;
mod unused;
mod words;

use crate::map::{self, Entry, Map};
use crate::names::Names;
use crate::report::{Place, Report};
use crate::sheet::{Kind, Record, Sheet};
use body::Body;
use declare::Declared;
use flow::{Flow, Step};
use labels::Labels;

/// No model's text is longer.
const MOST_BYTES: usize = 1 << 21;

/// Reads a text. The sheet and the map are there if the report has no error.
pub fn read(path: &str, text: &str) -> (Report, Option<(Sheet, Map)>) {
    let mut report = Report::default();
    if text.len() > MOST_BYTES {
        let words = format!("this text has {} bytes: a model's text has at most {MOST_BYTES}", text.len());
        report.error(Place { line: 1, column: 1 }, words);
        return (report, None);
    }
    let lines = lex::lines(text, &mut report);
    let (declared, bodies) = outline::outline(lines, &mut report);
    let mut steps = Vec::new();
    let flows: Vec<Flow> = bodies.iter().map(|body| flow::read(body, &declared, &mut steps, &mut report)).collect();
    let counts = declared.counts();
    let mut labels = Labels::new(&declared, &bodies, &flows);
    labels.resolve(&mut steps, &mut report);
    let starts = labels.starts(counts.processes as usize, &mut report);
    if report.errors() > 0 {
        return (report, None);
    }
    labels.unused(&mut report);
    let sheet = Sheet { counts, starts, records: steps.iter().map(|step| step.record).collect() };
    unused::statements(&sheet, &steps, &flows, &mut report);
    unused::names(&sheet, &declared, &mut report);
    let map = map_of(path, &declared, &bodies, &steps);
    (report, Some((sheet, map)))
}

fn map_of(path: &str, declared: &Declared, bodies: &[Body], steps: &[Step]) -> Map {
    let mut names: Names = vec!["none".to_string()];
    names.extend(declared.names().map(str::to_string));
    let mut lines = vec![0; declared.of_kind(Kind::Process).len()];
    for body in bodies {
        body.owners.iter().for_each(|owner| lines[owner.process as usize - 1] = body.place.line);
    }
    let entry = |step: &Step| Entry { line: step.place.line, statement: words(step, &names) };
    let records = steps.iter().map(entry).collect();
    Map { text: Some(path.to_string()), bodies: lines, records, names }
}

/// The statement of a step, with the label that the text has.
fn words(step: &Step, names: &Names) -> String {
    match &step.branch {
        Some((label, _)) => map::statement(&Record { y: 1, ..step.record }, names, &|_| label.clone()),
        None => map::statement(&step.record, names, &|_| String::new()),
    }
}
