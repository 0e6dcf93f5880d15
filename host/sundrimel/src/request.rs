//! A request: the lent target, what is asked of it, and the codes that the entry reads.

/// A request. It borrows its slices; nothing is copied.
#[derive(Clone, Copy, Debug, PartialEq, Eq)]
pub struct Request<'a> {
    /// 1 to 65,535 letters A, C, G, T.
    pub target: &'a [u8],
    pub kind: Kind<'a>,
    /// The range's first base, counted from 0. An insertion's range is its two flanking bases.
    pub start: i32,
    /// The gap after the range's last base.
    pub end: i32,
    pub edit: Edit<'a>,
    pub direction: Direction,
    /// How many bases are looked at in one go, 1 to 1,024. It does not show in the answer.
    pub window: u32,
}

/// What the target is.
#[derive(Clone, Copy, Debug, PartialEq, Eq)]
pub enum Kind<'a> {
    /// A g. or m. sequence.
    Open,
    /// A transcript whose changes stay inside their exon and on their side of the CDS bounds.
    Transcript(Tables<'a>),
    /// A transcript whose changes may cross exon and CDS bounds.
    Crossing,
}

/// Where a transcript's exons and its coding sequence lie.
#[derive(Clone, Copy, Debug, PartialEq, Eq)]
pub struct Tables<'a> {
    /// Pairs of 32-bit little-endian numbers, as [`exon_bytes`] makes them.
    pub exons: &'a [u8],
    pub cds_start: Option<u32>,
    pub cds_end: Option<u32>,
}

/// The change that is asked for, with the alternative where it has one.
#[derive(Clone, Copy, Debug, PartialEq, Eq)]
pub enum Edit<'a> {
    Insertion(&'a [u8]),
    Duplication,
    Deletion,
    Replacement(&'a [u8]),
    Inversion,
}

/// Where the change is moved.
#[derive(Clone, Copy, Debug, PartialEq, Eq)]
pub enum Direction {
    /// 5' to 3', as the nomenclature asks.
    Rightward,
    Leftward,
}

/// The bytes of an exon table: each exon's first base, counted from 0, and the gap after its last.
pub fn exon_bytes(exons: &[(u32, u32)]) -> Vec<u8> {
    exons
        .iter()
        .flat_map(|(start, end)| [start.to_le_bytes(), end.to_le_bytes()])
        .flatten()
        .collect()
}

impl<'a> Kind<'a> {
    pub(crate) fn code(&self) -> u32 {
        match self {
            Kind::Open => 0,
            Kind::Transcript(_) => 1,
            Kind::Crossing => 2,
        }
    }

    /// The tables; open and crossing targets have none.
    pub(crate) fn tables(&self) -> Tables<'a> {
        match self {
            Kind::Transcript(tables) => *tables,
            Kind::Open | Kind::Crossing => Tables {
                exons: &[],
                cds_start: None,
                cds_end: None,
            },
        }
    }
}

impl Tables<'_> {
    /// A CDS bound as the entry reads it: -1 is absent.
    pub(crate) fn bound(bound: Option<u32>) -> i64 {
        bound.map_or(-1, i64::from)
    }
}

impl<'a> Edit<'a> {
    pub(crate) fn code(&self) -> u32 {
        match self {
            Edit::Insertion(_) => 0,
            Edit::Duplication => 1,
            Edit::Deletion => 2,
            Edit::Replacement(_) => 3,
            Edit::Inversion => 4,
        }
    }

    pub(crate) fn alternative(&self) -> &'a [u8] {
        match self {
            Edit::Insertion(bases) | Edit::Replacement(bases) => bases,
            Edit::Duplication | Edit::Deletion | Edit::Inversion => &[],
        }
    }
}

impl Direction {
    pub(crate) fn code(self) -> u32 {
        match self {
            Direction::Rightward => 0,
            Direction::Leftward => 1,
        }
    }
}
