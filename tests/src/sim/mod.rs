//! The plain list simulator, written from documents 01 and 02 and their readings alone.
//! It knows lists of links and of notices; tables are only read into lists and written from them.

pub mod accum;
pub mod activation;
pub mod call;
pub mod kept;
pub mod limit;
pub mod model;
pub mod operand;
pub mod print;
pub mod run;
pub mod sequencing;
pub mod sets;
pub mod sheet;
pub mod sheet_rules;
pub mod tables;
