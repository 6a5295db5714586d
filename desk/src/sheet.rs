//! Model sheets: their bytes, and what they say. A sheet that breaks its layout is told by the first thing that is wrong in it.

use crate::operations::{row_of, Part, Wants, TABLE};

pub const MAX_HEADS: u32 = 64;
pub const MAX_PROCESSES: u32 = 1_024;
pub const MAX_LINKS: u32 = 3_008;
pub const MAX_RECORDS: u32 = 2_000;
/// The most members of a queue.
pub const MAX_MEMBERS: usize = 512;
pub const MAX_ACCUMULATORS: u32 = 64;
/// The latest time, 2^40 - 1.
pub const LATEST: u64 = 1_099_511_627_775;
/// An accumulator's rate lies between this and its negative.
pub const MOST_RATE: i64 = 1_000_000;
/// The operand that means current; above it by h, the first member of head h, or its first process (`Wants::ProcessOrNone`).
pub const CURRENT: u32 = 65_536;

const HEADER_BYTES: usize = 16;
const RECORD_BYTES: usize = 24;

#[derive(Clone, Copy, Debug, Default, PartialEq, Eq)]
pub struct Counts {
    pub heads: u32,
    pub processes: u32,
    pub links: u32,
}

/// What a number from 1 to N stands for; 0 is none.
#[derive(Clone, Copy, Debug, PartialEq, Eq)]
pub enum Kind {
    None,
    Head,
    Process,
    Link,
}

impl Kind {
    pub fn words(self) -> &'static str {
        match self {
            Kind::None => "none",
            Kind::Head => "a head",
            Kind::Process => "a process",
            Kind::Link => "a link",
        }
    }

    /// Whether a linkage of this kind will do for an operand at its step; otherwise the step is refused with 3.
    pub fn will_do(self, wants: Wants) -> bool {
        match wants {
            Wants::Link => matches!(self, Kind::Process | Kind::Link),
            Wants::LinkageOrNone => true,
            Wants::Head => self == Kind::Head,
            Wants::HeadOrNone => matches!(self, Kind::Head | Kind::None),
            Wants::ProcessOrNone => matches!(self, Kind::Process | Kind::None),
        }
    }
}

impl Counts {
    pub fn total(&self) -> u32 {
        self.heads + self.processes + self.links
    }

    pub fn main(&self) -> u32 {
        self.heads + 1
    }

    pub fn kind(&self, number: u32) -> Kind {
        match number {
            0 => Kind::None,
            n if n <= self.heads => Kind::Head,
            n if n <= self.heads + self.processes => Kind::Process,
            _ => Kind::Link,
        }
    }
}

/// One record; its two zero bytes are not kept.
#[derive(Clone, Copy, Debug, Default, PartialEq, Eq)]
pub struct Record {
    pub next: u32,
    pub operation: u8,
    pub clause: u8,
    pub x: u32,
    pub y: u32,
    pub t: i64,
}

#[derive(Clone, Debug, Default, PartialEq, Eq)]
pub struct Sheet {
    pub counts: Counts,
    /// The record where each process begins, the p-th at p - 1.
    pub starts: Vec<u32>,
    /// Record r stands at r - 1.
    pub records: Vec<Record>,
}

impl Sheet {
    pub fn record(&self, number: u32) -> &Record {
        &self.records[number as usize - 1]
    }

    /// Record r goes on to these records, 0 for the end.
    pub fn ways_on(&self, number: u32) -> impl Iterator<Item = u32> {
        let record = self.record(number);
        let branch = row_of(record.operation, record.clause, false).is_some_and(|row| row.takes(Part::Record));
        [Some(record.next), branch.then_some(record.y)].into_iter().flatten()
    }

    pub fn encode(&self) -> Vec<u8> {
        let c = self.counts;
        let mut bytes = Vec::new();
        let header = [c.heads, c.processes, c.links, self.records.len() as u32];
        for field in header.iter().chain(&self.starts) {
            bytes.extend_from_slice(&field.to_le_bytes());
        }
        for r in &self.records {
            bytes.extend_from_slice(&r.next.to_le_bytes());
            bytes.extend_from_slice(&[r.operation, r.clause, 0, 0]);
            bytes.extend_from_slice(&r.x.to_le_bytes());
            bytes.extend_from_slice(&r.y.to_le_bytes());
            bytes.extend_from_slice(&r.t.to_le_bytes());
        }
        bytes
    }
}

fn word(bytes: &[u8], at: usize) -> u32 {
    u32::from_le_bytes([bytes[at], bytes[at + 1], bytes[at + 2], bytes[at + 3]])
}

fn signed(bytes: &[u8], at: usize) -> i64 {
    (u64::from(word(bytes, at)) | u64::from(word(bytes, at + 4)) << 32) as i64
}

/// The sheet that these bytes are, or why they are none.
pub fn decode(bytes: &[u8]) -> Result<Sheet, String> {
    if bytes.len() < HEADER_BYTES {
        return Err(format!("{} bytes are fewer than the {HEADER_BYTES} of a sheet's header", bytes.len()));
    }
    let counts = Counts { heads: word(bytes, 0), processes: word(bytes, 4), links: word(bytes, 8) };
    let size = word(bytes, 12);
    within(counts.heads, MAX_HEADS, "heads")?;
    within(counts.processes, MAX_PROCESSES, "processes")?;
    within(counts.links, MAX_LINKS, "links")?;
    within(size, MAX_RECORDS, "records")?;
    if counts.processes == 0 {
        return Err("no process: a model has at least main".to_string());
    }
    let (starts, records) = (HEADER_BYTES, HEADER_BYTES + 4 * counts.processes as usize);
    let length = records + RECORD_BYTES * size as usize;
    if bytes.len() != length {
        let has = format!("{} processes and {size} records", counts.processes);
        return Err(format!("{} bytes: a sheet with {has} has {length}", bytes.len()));
    }
    let starts = (0..counts.processes as usize).map(|p| word(bytes, starts + 4 * p)).collect();
    let mut sheet = Sheet { counts, starts, records: Vec::new() };
    if let Some(p) = sheet.starts.iter().position(|&start| start > size) {
        return Err(format!("process {} starts at record {}, of {size}", p as u32 + counts.main(), sheet.starts[p]));
    }
    for (i, bytes) in bytes[records..].chunks(RECORD_BYTES).enumerate() {
        let record = read(bytes, counts, size).map_err(|why| format!("record {}: {why}", i + 1))?;
        sheet.records.push(record);
    }
    Ok(sheet)
}

fn within(count: u32, most: u32, what: &str) -> Result<(), String> {
    if count <= most {
        return Ok(());
    }
    Err(format!("{count} {what}: a model has at most {most}"))
}

/// One record of 24 bytes; a field that its operation does not use holds 0.
fn read(bytes: &[u8], counts: Counts, size: u32) -> Result<Record, String> {
    let (operation, clause) = (bytes[4], bytes[5]);
    let record =
        Record { next: word(bytes, 0), operation, clause, x: word(bytes, 8), y: word(bytes, 12), t: signed(bytes, 16) };
    if record.next > size {
        return Err(format!("it goes on to record {}, of {size}", record.next));
    }
    if TABLE.iter().all(|row| row.operation != operation) {
        return Err(format!("there is no operation {operation}"));
    }
    let row = row_of(operation, clause, false).ok_or(format!("operation {operation} has no clause {clause}"))?;
    if bytes[6] != 0 || bytes[7] != 0 {
        return Err("the two bytes behind its clause are not 0".to_string());
    }
    let operand = |value: u32| value <= counts.total() || (CURRENT..=CURRENT + counts.heads).contains(&value);
    let x_fine = match row.wants_x() {
        Some(_) => operand(record.x),
        None if row.takes(Part::Number) => (1..=MAX_ACCUMULATORS).contains(&record.x),
        None => record.x == 0,
    };
    let y_fine = match row.wants_y() {
        Some(_) => operand(record.y),
        None if row.takes(Part::Record) => record.y <= size,
        None => record.y == 0,
    };
    let t_fine = row.takes(Part::T) || record.t == 0;
    match (x_fine, y_fine, t_fine) {
        (true, true, true) => Ok(record),
        (false, _, _) => Err(format!("its x, {}, will not do for '{}'", record.x, row.words())),
        (_, false, _) => Err(format!("its y, {}, will not do for '{}'", record.y, row.words())),
        _ => Err(format!("its t, {}, will not do for '{}'", record.t, row.words())),
    }
}
