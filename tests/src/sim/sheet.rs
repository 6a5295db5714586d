//! Model sheets as bytes and as records.

use super::model::{require, Counts, Refusal};
use super::sheet_rules;
use crate::mutations::{on, M};

pub const MAX_RECORDS: u32 = 2_000;
/// The operand that means current; above it by h, the first member of head h, or the first that is a process.
pub const CURRENT: u32 = 65_536;

/// One record of 24 bytes.
#[derive(Clone, Copy, Debug, Default, PartialEq, Eq)]
pub struct Record {
    pub next: u32,
    pub operation: u8,
    pub clause: u8,
    pub zeros: [u8; 2],
    pub x: u32,
    pub y: u32,
    pub t: i64,
}

#[derive(Clone, Debug, PartialEq, Eq)]
pub struct Sheet {
    pub counts: Counts,
    /// Where each process begins, the p-th at p - 1.
    pub starts: Vec<u32>,
    /// Record number r stands at r - 1.
    pub records: Vec<Record>,
}

/// The 32-bit word at a byte offset.
pub fn word(bytes: &[u8], at: usize) -> u32 {
    let mut four = [0; 4];
    four.copy_from_slice(&bytes[at..at + 4]);
    u32::from_le_bytes(four)
}

/// The 64-bit word at a byte offset.
pub fn long(bytes: &[u8], at: usize) -> u64 {
    u64::from(word(bytes, at)) | u64::from(word(bytes, at + 4)) << 32
}

impl Record {
    fn read(b: &[u8]) -> Record {
        Record {
            next: word(b, 0),
            operation: b[4],
            clause: b[5],
            zeros: [b[6], b[7]],
            x: word(b, 8),
            y: word(b, 12),
            t: long(b, 16) as i64,
        }
    }

    fn write(&self, out: &mut Vec<u8>) {
        out.extend_from_slice(&self.next.to_le_bytes());
        out.extend_from_slice(&[self.operation, self.clause, self.zeros[0], self.zeros[1]]);
        out.extend_from_slice(&self.x.to_le_bytes());
        out.extend_from_slice(&self.y.to_le_bytes());
        out.extend_from_slice(&self.t.to_le_bytes());
    }
}

impl Sheet {
    /// R, how many records there are.
    pub fn size(&self) -> u32 {
        self.records.len() as u32
    }

    pub fn record(&self, number: u32) -> Record {
        self.records[number as usize - 1]
    }

    /// The bytes of the sheet; nothing is judged here, so that damaged sheets can be written too.
    pub fn encode(&self) -> Vec<u8> {
        let mut out = Vec::new();
        let c = self.counts;
        for field in [c.heads, c.processes, c.plain, self.size()] {
            out.extend_from_slice(&field.to_le_bytes());
        }
        for start in &self.starts {
            out.extend_from_slice(&start.to_le_bytes());
        }
        for record in &self.records {
            record.write(&mut out);
        }
        out
    }
}

/// The sheet of these bytes, or refusal 8. Limits come first, so that the length cannot wrap.
pub fn decode(bytes: &[u8]) -> Result<Sheet, Refusal> {
    require(bytes.len() >= 16, 8)?;
    let counts = Counts::new(word(bytes, 0), word(bytes, 4), word(bytes, 8));
    let size = word(bytes, 12);
    require(counts.within_limits() && size <= MAX_RECORDS, 8)?;
    let body = 16 + 4 * counts.processes as usize;
    let length = body + 24 * size as usize;
    require(bytes.len() == length || (on(M::TrailingBytesFree) && bytes.len() > length), 8)?;
    let sheet = Sheet {
        counts,
        starts: (0..counts.processes as usize).map(|p| word(bytes, 16 + 4 * p)).collect(),
        records: (0..size as usize).map(|r| Record::read(&bytes[body + 24 * r..])).collect(),
    };
    require(sheet_rules::keeps_layout(&sheet), 8)?;
    Ok(sheet)
}
