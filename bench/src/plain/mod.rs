//! The judge once more, from documents 01 and 02 and AMD's guide alone, in plain Rust.

pub mod alu;
pub mod apart;
pub mod card;
pub mod codec;
pub mod control;
pub mod fetch_codec;
pub mod fetches;
pub mod flow;
#[cfg(test)]
mod flow_tests;
pub mod grants;
pub mod group;
pub mod instruction;
pub mod judge;
pub mod opcodes;

pub use alu::alu_clause;
pub use judge::judge;

/// Kind of shader: the card's first line.
#[derive(Clone, Copy, PartialEq, Eq, Debug)]
pub enum Kind {
    Pixel,
    Vertex,
    Geometry,
}
