//! A plain judge beside the proved one: comparison and times.

pub mod from_c;
pub mod generate;
pub mod mixture;
pub mod plain;
pub mod proved;
pub mod tally;
pub mod timing;
