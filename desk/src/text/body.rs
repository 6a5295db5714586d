//! The bodies of a text: the statements of one process, or of those that share them.

use super::token::Line;
use crate::report::Place;

/// A process that a body belongs to, and the label where it begins if that is not the body's first statement.
#[derive(Debug)]
pub struct Owner {
    /// From 1, in the list of processes.
    pub process: u32,
    pub from: Option<(String, Place)>,
}

#[derive(Debug)]
pub struct Body {
    pub place: Place,
    /// The name of its process, for messages; the first that the text has.
    pub title: String,
    /// The line before it, which names its processes; nothing if it was forgotten.
    pub header: Option<Line>,
    pub owners: Vec<Owner>,
    pub lines: Vec<Line>,
}
