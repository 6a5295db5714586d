//! The drivers: they start the program under test, feed it and compare what it answers.

pub mod calls;
pub mod cases;
pub mod child;
pub mod desk;
pub mod ends;
pub mod host;
pub mod mistakes;
pub mod print;
pub mod report;
pub mod runs;
pub mod serve;
pub mod sheets;
pub mod tally;
