/// Stands in for a place in a source text: these trees have none.
#[derive(Debug, Clone, Copy, PartialEq, Eq)]
pub struct Span;
