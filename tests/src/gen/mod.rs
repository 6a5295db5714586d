//! Seeded generators: good models, calls, damaged tables, sheets, runs.

pub mod accums;
pub mod buffers;
pub mod crowded;
pub mod crowds;
pub mod damage;
pub mod extreme;
pub mod leaving;
pub mod limit;
pub mod limit_sheets;
pub mod limit_steps;
pub mod long_rings;
pub mod models;
pub mod operands;
pub mod prints;
pub mod queue_cases;
pub mod queues;
pub mod records;
pub mod ring_damage;
pub mod run_lists;
pub mod runs;
pub mod sheet_damage;
pub mod sheets;
pub mod shown;
pub mod special;
pub mod stream;
pub mod texts;

use crate::protocol::Request;

/// A request and, in a few words, what is particular about it.
pub struct Case {
    pub request: Request,
    pub note: &'static str,
}
