//! A request as it reaches the entry: codes and numbers as they come, the tables as bytes.

/// A request, and how much room its two answer buffers have.
#[derive(Clone, Copy, Debug)]
pub struct Request<'a> {
    pub target: &'a [u8],
    pub kind: u32,
    pub exons: &'a [u8],
    pub cds_start: i64,
    pub cds_end: i64,
    pub start: i32,
    pub end: i32,
    pub edit: u32,
    pub alternative: &'a [u8],
    pub direction: u32,
    pub window: u32,
    pub reference_room: usize,
    pub alternative_room: usize,
}

#[derive(Clone, Copy, Debug, PartialEq, Eq)]
pub enum Kind {
    Open,
    Transcript,
    Crossing,
}

#[derive(Clone, Copy, Debug, PartialEq, Eq)]
pub enum Edit {
    Insertion,
    Duplication,
    Deletion,
    Replacement,
    Inversion,
}

#[derive(Clone, Copy, Debug, PartialEq, Eq)]
pub enum Direction {
    Rightward,
    Leftward,
}

impl Kind {
    pub const ALL: [Kind; 3] = [Kind::Open, Kind::Transcript, Kind::Crossing];
}

impl Edit {
    pub const ALL: [Edit; 5] = [
        Edit::Insertion,
        Edit::Duplication,
        Edit::Deletion,
        Edit::Replacement,
        Edit::Inversion,
    ];

    /// Only insertion and replacement read the alternative.
    pub fn reads_alternative(self) -> bool {
        matches!(self, Edit::Insertion | Edit::Replacement)
    }
}

impl Direction {
    pub const ALL: [Direction; 2] = [Direction::Rightward, Direction::Leftward];
}

impl Request<'_> {
    /// The kind that the code stands for; none where it is no listed code.
    pub fn kind(&self) -> Option<Kind> {
        Kind::ALL.get(self.kind as usize).copied()
    }

    pub fn edit(&self) -> Option<Edit> {
        Edit::ALL.get(self.edit as usize).copied()
    }

    pub fn direction(&self) -> Option<Direction> {
        Direction::ALL.get(self.direction as usize).copied()
    }
}
