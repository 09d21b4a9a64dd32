//! The proved library behind safe functions, and what it is held to.

pub mod answers;
pub mod comparing;
pub mod findings;
pub mod inputs;
pub mod lending;
mod listed;
mod proved;
pub mod records;
pub mod seeds;
pub mod shapes;
pub mod tally;

use plain::{Record, Refusal};

pub use proved::Proved;

/// What the plain second reader makes of bytes.
pub type Reading = Result<Record, Refusal>;

/// A rule with its node and its name's number, or a refusal with its offset; 0, 0 and [`NO_NAME`] for accepted and for no. Of the list: 0
/// with the count, 50 with the entries needed, or a refusal with its offset.
#[repr(C)]
#[derive(Debug, Clone, Copy, PartialEq, Eq)]
pub struct Asked {
    pub number: u32,
    pub place: u32,
    pub name: u32,
}

pub const NO_NAME: u32 = 255;

/// Where a name stands in the bytes, without its padding; 0 and 0 for an unknown number and for bytes that are turned away.
#[repr(C)]
#[derive(Debug, Clone, Copy, PartialEq, Eq)]
pub struct Stretch {
    pub at: usize,
    pub len: usize,
}

pub const NO_STRETCH: Stretch = Stretch { at: 0, len: 0 };

/// What is asked of the proved library: a wrong one in its place shows that the comparing notices it.
pub trait Library {
    /// The seed has a bit for each name in scope, name 0 lowest.
    fn scoping(&self, bytes: &[u8], seed: u128) -> Asked;
    fn closedness(&self, bytes: &[u8]) -> Asked;
    fn demands(&self, bytes: &[u8]) -> Asked;
    fn arithmetic(&self, bytes: &[u8]) -> Asked;
    fn list(&self, bytes: &[u8], lent: &mut [u32]) -> Asked;
    fn name(&self, bytes: &[u8], number: u8) -> Stretch;
}
