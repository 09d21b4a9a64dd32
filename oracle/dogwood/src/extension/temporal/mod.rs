// Formatting would change files that are kept byte for byte.
#[rustfmt::skip]
pub mod ast;
#[rustfmt::skip]
pub mod check;
