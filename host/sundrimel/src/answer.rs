//! What comes back of a request: an answer with its class and alleles, or a refusal by name.

use std::fmt;

/// A change in its normal form. The range is 1-based and holds both its ends.
#[derive(Clone, Copy, Debug, PartialEq, Eq)]
pub struct Answer<'a> {
    pub class: Class,
    pub start: u32,
    pub end: u32,
    /// The pairs of bases that were compared in the move.
    pub probes: u32,
    pub reference: &'a [u8],
    pub alternative: &'a [u8],
}

/// What a change is called.
#[derive(Clone, Copy, Debug, PartialEq, Eq, PartialOrd, Ord, Hash)]
pub enum Class {
    Insertion = 1,
    Duplication = 2,
    Deletion = 3,
    Replacement = 4,
    Inversion = 5,
    Unchanged = 6,
}

/// Why a request is refused. Number 11 is reserved and has no name.
#[derive(Clone, Copy, Debug, PartialEq, Eq, PartialOrd, Ord, Hash)]
pub enum Refusal {
    BadCode = 1,
    BadWindow = 2,
    BadTarget = 3,
    BadBase = 4,
    CoordinatesOutOfBounds = 5,
    BadInsertion = 6,
    TooLong = 7,
    BadAllele = 8,
    NoRoom = 9,
    BadTables = 10,
    ExonNotFoundForStart = 12,
    ExonNotFoundForEnd = 13,
    ExonIntronBoundary = 14,
    UtrExonBoundary = 15,
    VariantSpanOutsideSequenceBounds = 16,
}

impl Class {
    const ALL: [Class; 6] = [
        Class::Insertion,
        Class::Duplication,
        Class::Deletion,
        Class::Replacement,
        Class::Inversion,
        Class::Unchanged,
    ];

    pub fn number(self) -> u32 {
        self as u32
    }

    pub fn from_number(number: u32) -> Option<Self> {
        Self::ALL.into_iter().find(|class| class.number() == number)
    }
}

impl Refusal {
    const ALL: [Refusal; 15] = [
        Refusal::BadCode,
        Refusal::BadWindow,
        Refusal::BadTarget,
        Refusal::BadBase,
        Refusal::CoordinatesOutOfBounds,
        Refusal::BadInsertion,
        Refusal::TooLong,
        Refusal::BadAllele,
        Refusal::NoRoom,
        Refusal::BadTables,
        Refusal::ExonNotFoundForStart,
        Refusal::ExonNotFoundForEnd,
        Refusal::ExonIntronBoundary,
        Refusal::UtrExonBoundary,
        Refusal::VariantSpanOutsideSequenceBounds,
    ];

    pub fn number(self) -> u32 {
        self as u32
    }

    pub fn from_number(number: u32) -> Option<Self> {
        Self::ALL.into_iter().find(|row| row.number() == number)
    }

    fn reason(self) -> &'static str {
        match self {
            Refusal::BadCode => "kind, edit or direction is no listed code",
            Refusal::BadWindow => "the window is 0 or above 1,024",
            Refusal::BadTarget => "the target is empty or longer than 65,535 bases",
            Refusal::BadBase => "the target holds another letter than A, C, G or T",
            Refusal::CoordinatesOutOfBounds => "the range is empty or leaves the target",
            Refusal::BadInsertion => "an insertion needs two flanking bases and an alternative",
            Refusal::TooLong => "the range or the alternative is longer than 1,024 bases",
            Refusal::BadAllele => "the alternative holds another letter than A, C, G or T",
            Refusal::NoRoom => "an answer buffer is shorter than 1,025 bytes",
            Refusal::BadTables => "the exons or the CDS bounds break a table rule",
            Refusal::ExonNotFoundForStart => "no exon holds the range's start",
            Refusal::ExonNotFoundForEnd => "no exon holds the range's end",
            Refusal::ExonIntronBoundary => "the range begins and ends in different exons",
            Refusal::UtrExonBoundary => "the range has bases on both sides of a CDS bound",
            Refusal::VariantSpanOutsideSequenceBounds => "the insertion reaches past the target",
        }
    }
}

impl fmt::Display for Refusal {
    fn fmt(&self, f: &mut fmt::Formatter<'_>) -> fmt::Result {
        write!(f, "refusal {}: {}", self.number(), self.reason())
    }
}

impl std::error::Error for Refusal {}

#[cfg(test)]
mod tests {
    use super::*;

    #[test]
    fn numbers_lead_back_to_their_names() {
        for number in 0..20 {
            let class = Class::from_number(number);
            assert_eq!(class.is_some(), (1..=6).contains(&number));
            assert!(class.is_none_or(|class| class.number() == number));
            let refusal = Refusal::from_number(number);
            assert_eq!(
                refusal.is_some(),
                (1..=16).contains(&number) && number != 11
            );
            assert!(refusal.is_none_or(|refusal| refusal.number() == number));
        }
    }
}
