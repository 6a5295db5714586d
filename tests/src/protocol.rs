//! Requests to the calls program and its responses, as bytes.

use crate::sim::accum::Accum;
use crate::sim::call::Call;
use crate::sim::model::Counts;
use crate::sim::sheet::{long, word};
use crate::sim::tables::Tables;

/// Bytes of a request before its contents, and of a response before its contents.
pub const REQUEST_HEAD: usize = 72;
pub const RESPONSE_HEAD: usize = 16;

/// All that a call may change: the model, accumulators, positions, trace.
#[derive(Clone, Debug, Default, PartialEq, Eq)]
pub struct Lent {
    pub tables: Tables,
    pub accums: Vec<Accum>,
    pub positions: Vec<u32>,
    pub trace: Vec<u8>,
}

#[derive(Clone, Debug, PartialEq, Eq)]
pub struct Request {
    pub call: Call,
    pub counts: Counts,
    pub lent: Lent,
    pub sheet: Vec<u8>,
}

#[derive(Clone, Debug, PartialEq, Eq)]
pub struct Response {
    pub code: u32,
    pub lines: u32,
    pub answer: u64,
    pub lent: Lent,
}

/// The eight lengths of a request.
type Lengths = [usize; 8];

fn put(out: &mut Vec<u8>, value: u32) {
    out.extend_from_slice(&value.to_le_bytes());
}

fn put_long(out: &mut Vec<u8>, value: u64) {
    out.extend_from_slice(&value.to_le_bytes());
}

/// How many bytes each of the contents takes.
fn sizes(l: Lengths) -> Lengths {
    [4 * l[0], 4 * l[1], 8 * l[2], l[3], 24 * l[4], 4 * l[5], l[6], l[7]]
}

fn words(bytes: &[u8]) -> Vec<u32> {
    bytes.chunks_exact(4).map(|b| word(b, 0)).collect()
}

impl Lent {
    fn put_tables(&self, out: &mut Vec<u8>) {
        self.tables.links.iter().chain(&self.tables.axis).for_each(|&w| put(out, w));
        self.tables.times.iter().for_each(|&w| put_long(out, w));
        out.extend_from_slice(&self.tables.marks);
        for x in &self.accums {
            [x.a, x.b, x.c].iter().for_each(|&w| put_long(out, w as u64));
        }
        self.positions.iter().for_each(|&w| put(out, w));
    }

    /// Reads the contents, all but the sheet, in their order.
    fn read(parts: &[&[u8]; 8]) -> Lent {
        let accum = |b: &[u8]| Accum { a: long(b, 0) as i64, b: long(b, 8) as i64, c: long(b, 16) as i64 };
        Lent {
            tables: Tables {
                links: words(parts[0]),
                axis: words(parts[1]),
                times: parts[2].chunks_exact(8).map(|b| long(b, 0)).collect(),
                marks: parts[3].to_vec(),
            },
            accums: parts[4].chunks_exact(24).map(accum).collect(),
            positions: words(parts[5]),
            trace: parts[7].to_vec(),
        }
    }
}

/// Cuts bytes into the eight parts; none if they are too few. Gives what follows as well.
fn cut(bytes: &[u8], sizes: Lengths) -> Option<([&[u8]; 8], &[u8])> {
    let mut parts: [&[u8]; 8] = [&[]; 8];
    let mut rest = bytes;
    for (part, size) in parts.iter_mut().zip(sizes) {
        if rest.len() < size {
            return None;
        }
        (*part, rest) = rest.split_at(size);
    }
    Some((parts, rest))
}

impl Request {
    pub fn lengths(&self) -> Lengths {
        let (l, t) = (&self.lent, &self.lent.tables);
        let sheet = self.sheet.len();
        let model = [t.links.len(), t.axis.len(), t.times.len(), t.marks.len()];
        [model[0], model[1], model[2], model[3], l.accums.len(), l.positions.len(), sheet, l.trace.len()]
    }

    pub fn encode(&self, out: &mut Vec<u8>) {
        let (c, n) = (self.call, self.counts);
        for value in [c.number, n.heads, n.processes, n.plain, c.clause, c.x, c.y, 0] {
            put(out, value);
        }
        put_long(out, c.t as u64);
        self.lengths().iter().for_each(|&length| put(out, length as u32));
        self.lent.put_tables(out);
        out.extend_from_slice(&self.sheet);
        out.extend_from_slice(&self.lent.trace);
    }

    /// The first request of the bytes and what follows it; none if it is cut short.
    pub fn decode(bytes: &[u8]) -> Option<(Request, &[u8])> {
        if bytes.len() < REQUEST_HEAD {
            return None;
        }
        let field = |i: usize| word(bytes, 4 * i);
        let t = long(bytes, 32) as i64;
        let call = Call { number: field(0), clause: field(4), x: field(5), y: field(6), t };
        let mut lengths = [0; 8];
        lengths.iter_mut().enumerate().for_each(|(i, length)| *length = field(10 + i) as usize);
        let (parts, rest) = cut(&bytes[REQUEST_HEAD..], sizes(lengths))?;
        let counts = Counts::new(field(1), field(2), field(3));
        Some((Request { call, counts, lent: Lent::read(&parts), sheet: parts[6].to_vec() }, rest))
    }
}

impl Response {
    pub fn encode(&self, out: &mut Vec<u8>) {
        put(out, self.code);
        put(out, self.lines);
        put_long(out, self.answer);
        self.lent.put_tables(out);
        out.extend_from_slice(&self.lent.trace);
    }

    /// The response to this request at the start of the bytes, and what follows it.
    pub fn decode<'a>(bytes: &'a [u8], request: &Request) -> Option<(Response, &'a [u8])> {
        if bytes.len() < RESPONSE_HEAD {
            return None;
        }
        let mut sizes = sizes(request.lengths());
        sizes[6] = 0;
        let (parts, rest) = cut(&bytes[RESPONSE_HEAD..], sizes)?;
        let (code, lines, answer) = (word(bytes, 0), word(bytes, 4), long(bytes, 8));
        Some((Response { code, lines, answer, lent: Lent::read(&parts) }, rest))
    }
}
