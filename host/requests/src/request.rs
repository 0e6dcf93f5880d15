//! A request that owns its bytes, in the entry's numbers, so that it can be kept, changed and shown.

use std::fmt;

#[derive(Clone, Debug, PartialEq, Eq)]
pub struct Request {
    pub target: Vec<u8>,
    pub kind: u32,
    pub exons: Vec<u8>,
    pub cds_start: i64,
    pub cds_end: i64,
    pub start: i32,
    pub end: i32,
    pub edit: u32,
    pub alternative: Vec<u8>,
    pub direction: u32,
    pub window: u32,
    pub reference_room: usize,
    pub alternative_room: usize,
}

impl Request {
    /// A deletion of the first base of an open target: a start from which others are made.
    pub fn over(target: Vec<u8>) -> Self {
        Request {
            target,
            kind: 0,
            exons: Vec::new(),
            cds_start: -1,
            cds_end: -1,
            start: 0,
            end: 1,
            edit: 2,
            alternative: Vec::new(),
            direction: 0,
            window: 20,
            reference_room: model::ROOM,
            alternative_room: model::ROOM,
        }
    }

    /// The request as the model takes it.
    pub fn lent(&self) -> model::Request<'_> {
        model::Request {
            target: &self.target,
            kind: self.kind,
            exons: &self.exons,
            cds_start: self.cds_start,
            cds_end: self.cds_end,
            start: self.start,
            end: self.end,
            edit: self.edit,
            alternative: &self.alternative,
            direction: self.direction,
            window: self.window,
            reference_room: self.reference_room,
            alternative_room: self.alternative_room,
        }
    }

    /// The whole pairs of the exon table.
    pub fn exon_pairs(&self) -> Vec<(u32, u32)> {
        let number = |b: &[u8]| u32::from_le_bytes([b[0], b[1], b[2], b[3]]);
        let pairs = self.exons.chunks_exact(8);
        pairs.map(|p| (number(&p[..4]), number(&p[4..]))).collect()
    }

    pub fn set_exon_pairs(&mut self, pairs: &[(u32, u32)]) {
        let numbers = pairs.iter().flat_map(|&(start, end)| [start, end]);
        self.exons = numbers.flat_map(u32::to_le_bytes).collect();
    }
}

/// Letters as they are, runs of more than eight as letter and count, other bytes by number.
pub fn letters(bytes: &[u8]) -> String {
    bytes.chunk_by(|a, b| a == b).map(run).collect()
}

fn run(equal: &[u8]) -> String {
    let letter = match equal[0] {
        letter if letter.is_ascii_alphabetic() => (letter as char).to_string(),
        other => format!("<{other}>"),
    };
    match equal.len() {
        count if count > 8 => format!("{letter}*{count} "),
        count => letter.repeat(count),
    }
}

fn named(code: u32, names: &[&str]) -> String {
    match names.get(code as usize) {
        Some(name) => name.to_string(),
        None => format!("code {code}"),
    }
}

const KINDS: [&str; 3] = ["open", "transcript", "crossing"];
const EDITS: [&str; 5] = [
    "insertion",
    "duplication",
    "deletion",
    "replacement",
    "inversion",
];
const DIRECTIONS: [&str; 2] = ["rightward", "leftward"];

impl Request {
    fn shown_exons(&self) -> String {
        let pairs = self.exon_pairs().into_iter();
        let shown: Vec<String> = pairs
            .map(|(start, end)| format!("{start}..{end}"))
            .collect();
        format!("{} ({} bytes)", shown.join(", "), self.exons.len())
    }
}

impl fmt::Display for Request {
    fn fmt(&self, f: &mut fmt::Formatter<'_>) -> fmt::Result {
        let counted = |bytes: &[u8]| format!("{} ({} bytes)", letters(bytes), bytes.len());
        let (reference, alternative) = (self.reference_room, self.alternative_room);
        let lines = [
            ("target", counted(&self.target)),
            ("kind", named(self.kind, &KINDS)),
            ("exons", self.shown_exons()),
            ("CDS", format!("{} to {}", self.cds_start, self.cds_end)),
            ("range", format!("{}..{}", self.start, self.end)),
            ("edit", named(self.edit, &EDITS)),
            ("alternative", counted(&self.alternative)),
            ("direction", named(self.direction, &DIRECTIONS)),
            ("window", self.window.to_string()),
            ("room", format!("{reference} and {alternative}")),
        ];
        lines
            .iter()
            .try_for_each(|(name, value)| writeln!(f, "  {name:<13}{value}"))
    }
}
