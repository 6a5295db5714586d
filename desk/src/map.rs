//! The map of a model: its names, and record, line and statement of each step. `./sheet build` writes it beside the sheet.

use crate::names::{self, Names};
use crate::operations::{row_of, Part, Wants};
use crate::sheet::{Counts, Record, Sheet, CURRENT};
use std::fmt::Write;

/// One record as a statement of a text; line 0 where there is no text.
#[derive(Clone, Debug, PartialEq, Eq)]
pub struct Entry {
    pub line: u32,
    pub statement: String,
}

#[derive(Clone, Debug, PartialEq, Eq)]
pub struct Map {
    /// The text that the sheet was built from.
    pub text: Option<String>,
    pub names: Names,
    /// The line where the body of each process stands, the p-th at p - 1.
    pub bodies: Vec<u32>,
    /// Record r stands at r - 1.
    pub records: Vec<Entry>,
}

impl Map {
    /// For a sheet that comes without a text.
    pub fn of_sheet(sheet: &Sheet, names: Names) -> Map {
        let label = |record: u32| format!("record{record}");
        let entry = |record: &Record| Entry { line: 0, statement: statement(record, &names, &label) };
        let records = sheet.records.iter().map(entry).collect();
        Map { text: None, bodies: vec![0; sheet.starts.len()], records, names }
    }

    pub fn name(&self, number: u32) -> &str {
        &self.names[number as usize]
    }

    /// The name, the statement and the line of a printed step; nothing if the model has no such process or record.
    pub fn step(&self, process: u64, record: u64) -> Option<(&str, &str, u32)> {
        let name = self.names.get(usize::try_from(process).ok()?)?;
        let Some(at) = record.checked_sub(1) else { return Some((name, "end", 0)) };
        let entry = self.records.get(usize::try_from(at).ok()?)?;
        Some((name, &entry.statement, entry.line))
    }

    /// The map as text; `of` is the sheet that it belongs to.
    pub fn write(&self, counts: Counts, of: &[u8]) -> String {
        let list = |from: u32, to: u32| names::listed(&self.names[from as usize + 1..=to as usize]).join(" ");
        let processes = counts.heads + counts.processes;
        let bodies: Vec<String> = self.bodies.iter().map(u32::to_string).collect();
        let mut out = format!("text {}\nsheet {:016x}\n", self.text.as_deref().unwrap_or("-"), sum(of));
        let _ = writeln!(out, "heads {}", list(0, counts.heads));
        let _ = writeln!(out, "processes {}", list(counts.heads, processes));
        let _ = writeln!(out, "links {}", list(processes, counts.total()));
        let _ = writeln!(out, "bodies {}", bodies.join(" "));
        out.push_str("record  line  statement\n");
        for (i, entry) in self.records.iter().enumerate() {
            let _ = writeln!(out, "{:6} {:5}  {}", i + 1, entry.line, entry.statement);
        }
        out
    }

    /// The map of this sheet; none where the text is no map, or one of another sheet.
    pub fn read(text: &str, sheet: &Sheet, of: &[u8]) -> Option<Map> {
        let mut lines = text.lines();
        let mut field = |name: &str| Some(lines.next()?.strip_prefix(name)?.trim().to_string());
        let path = field("text")?;
        if field("sheet")? != format!("{:016x}", sum(of)) {
            return None;
        }
        let mut all = vec!["none".to_string()];
        for kind in ["heads", "processes", "links"] {
            for item in field(kind)?.split_whitespace() {
                match item.split_once("..") {
                    None => all.push(item.to_string()),
                    Some((first, last)) if names::range_size(first, last).ok()? <= sheet.counts.total() => {
                        all.extend(names::range_names(first, last));
                    }
                    Some(_) => return None,
                }
            }
        }
        let bodies: Vec<u32> = field("bodies")?.split_whitespace().map_while(|line| line.parse().ok()).collect();
        field("record")?;
        let records: Vec<Entry> = lines.map_while(entry).collect();
        let fits = all.len() == sheet.counts.total() as usize + 1
            && bodies.len() == sheet.starts.len()
            && records.len() == sheet.records.len();
        fits.then_some(Map { text: Some(path), names: all, bodies, records })
    }
}

/// One line of the map: record, line, statement.
fn entry(line: &str) -> Option<Entry> {
    let (_, rest) = line.trim_start().split_once(' ')?;
    let (line, statement) = rest.trim_start().split_once(' ')?;
    Some(Entry { line: line.parse().ok()?, statement: statement.trim().to_string() })
}

/// FNV-1a of the bytes: tells whether a map belongs to a sheet, no more.
fn sum(bytes: &[u8]) -> u64 {
    let step = |sum: u64, byte: &u8| (sum ^ u64::from(*byte)).wrapping_mul(0x0000_0100_0000_01b3);
    bytes.iter().fold(0xcbf2_9ce4_8422_2325, step)
}

/// An operand in words, at a place that asks for this.
fn operand(value: u32, wants: Wants, names: &Names) -> String {
    match value.checked_sub(CURRENT) {
        Some(0) => "current".to_string(),
        Some(head) => format!("{}({})", wants.first(), names[head as usize]),
        None => names[value as usize].clone(),
    }
}

/// A record in the words of a text; `label` names the record that it may go to.
pub fn statement(record: &Record, names: &Names, label: &dyn Fn(u32) -> String) -> String {
    let Some(row) = row_of(record.operation, record.clause, record.y == 0) else { return String::new() };
    let word = |part: &Part| match part {
        Part::Word(word) => word.to_string(),
        Part::X(wants) => operand(record.x, *wants, names),
        Part::Y(wants) => operand(record.y, *wants, names),
        Part::T => record.t.to_string(),
        Part::Number => record.x.to_string(),
        Part::Record => label(record.y),
    };
    row.form.iter().map(word).collect::<Vec<_>>().join(" ")
}
