//! What is kept of the answers of the Rust.

pub mod stored;
