//! What the Rust answers, in the words of docs/RULES.md.

/// An answer: its class by number, its 1-based range, and its alleles. The Rust counts no probes.
#[derive(Clone, Debug, PartialEq, Eq)]
pub struct Answer {
    pub class: u32,
    pub start: i32,
    pub end: i32,
    pub reference: String,
    pub alternative: String,
}

/// What came back: an answer, an error that has a row of the refusals, or another failure in words.
#[derive(Clone, Debug, PartialEq, Eq)]
pub enum Verdict {
    Answered(Answer),
    Refused(u32),
    Failed(String),
}
