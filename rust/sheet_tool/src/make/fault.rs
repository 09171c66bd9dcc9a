//! What is wrong in a text.

/// The first thing wrong in a text.
#[derive(Clone, Debug, PartialEq, Eq)]
pub struct Fault {
    /// From 1.
    pub line: usize,
    pub reason: String,
}
