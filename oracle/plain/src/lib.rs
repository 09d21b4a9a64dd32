//! A plain reader of the records of document 01, its lists, and the answers of the Rust to what it reads.

pub mod answers;
pub mod cases;
pub mod lists;
pub mod names;
pub mod random;
mod reader;
mod record;
pub mod tree;

pub use reader::{read, Refusal};
pub use record::{NameNumber, Node, NodeNumber, Record, Slot};
pub use tree::condition;
