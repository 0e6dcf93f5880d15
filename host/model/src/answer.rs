//! What a change is called, where it stands in 1-based numbers, and the two end rules.

use crate::change::{reverse_complement, Change};
use crate::piece::Piece;
use crate::request::{Direction, Kind};

/// The classes, with their numbers.
#[derive(Clone, Copy, Debug, PartialEq, Eq)]
pub enum Class {
    Insertion = 1,
    Duplication = 2,
    Deletion = 3,
    Replacement = 4,
    Inversion = 5,
    Unchanged = 6,
}

/// An accepted request's answer.
#[derive(Clone, Debug, PartialEq, Eq)]
pub struct Answer {
    pub class: Class,
    pub start: usize,
    pub end: usize,
    pub probes: u32,
    pub reference: Vec<u8>,
    pub alternative: Vec<u8>,
}

/// The two replacements that are answered before a piece is looked for: by the same bases, and one
/// base by one other.
pub fn at_once(target: &[u8], start: usize, end: usize, alternative: &[u8]) -> Option<Answer> {
    let reference = &target[start..end];
    let class = if reference == alternative {
        Class::Unchanged
    } else if reference.len() == 1 && alternative.len() == 1 {
        Class::Replacement
    } else {
        return None;
    };
    Some(Answer {
        class,
        start: start + 1,
        end,
        probes: 0,
        reference: reference.to_vec(),
        alternative: alternative.to_vec(),
    })
}

/// The answer for a change at its final place, before the end rules.
pub fn named(
    target: &[u8],
    piece: &Piece,
    direction: Direction,
    change: &Change,
    probes: u32,
) -> Answer {
    let reference = target[change.from..change.to].to_vec();
    let alternative = change.inserted.clone();
    if change.is_insertion() {
        return named_insertion(target, piece, direction, change, probes);
    }
    let (class, start) = if reference.is_empty() {
        (Class::Unchanged, change.to)
    } else if alternative.is_empty() {
        (Class::Deletion, change.from + 1)
    } else if reference.len() > 1 && reference == reverse_complement(&alternative) {
        (Class::Inversion, change.from + 1)
    } else {
        (Class::Replacement, change.from + 1)
    };
    let keeps_alternative = class == Class::Replacement;
    Answer {
        class,
        start,
        end: change.to,
        probes,
        reference,
        alternative: if keeps_alternative {
            alternative
        } else {
            Vec::new()
        },
    }
}

/// A duplication where the copy beside the gap is equal and lies wholly in piece and target, else
/// an insertion.
fn named_insertion(
    target: &[u8],
    piece: &Piece,
    direction: Direction,
    change: &Change,
    probes: u32,
) -> Answer {
    let gap = change.from;
    let copied = change.inserted.len();
    let beside = match direction {
        Direction::Rightward => gap.checked_sub(copied).map(|left| (left, gap)),
        Direction::Leftward => Some((gap, gap + copied)),
    };
    let in_piece = beside
        .filter(|&(left, right)| piece.left <= left && right <= piece.right.min(target.len()));
    match in_piece.filter(|&(left, right)| target[left..right] == change.inserted) {
        Some((left, right)) => Answer {
            class: Class::Duplication,
            start: left + 1,
            end: right,
            probes,
            reference: change.inserted.clone(),
            alternative: Vec::new(),
        },
        None => Answer {
            class: Class::Insertion,
            start: gap,
            end: gap + 1,
            probes,
            reference: Vec::new(),
            alternative: change.inserted.clone(),
        },
    }
}

/// A result start of 0 becomes range 1, 1 with the first base as reference and the alternative
/// followed by that base.
pub fn first_base_rule(target: &[u8], answer: Answer) -> Answer {
    if answer.start != 0 {
        return answer;
    }
    let reference = target[..1].to_vec();
    let alternative = [&answer.alternative[..], &reference[..]].concat();
    let class = if reference == alternative {
        Class::Unchanged
    } else {
        Class::Replacement
    };
    Answer {
        class,
        start: 1,
        end: 1,
        probes: answer.probes,
        reference,
        alternative,
    }
}

/// On both transcript kinds a result end of L+1 becomes range L, L with the last base and that base
/// followed by the alternative.
pub fn last_base_rule(target: &[u8], kind: Kind, answer: Answer) -> Answer {
    let length = target.len();
    if kind == Kind::Open || answer.end != length + 1 {
        return answer;
    }
    let reference = target[length - 1..].to_vec();
    let alternative = [&reference[..], &answer.alternative[..]].concat();
    Answer {
        class: Class::Replacement,
        start: length,
        end: length,
        probes: answer.probes,
        reference,
        alternative,
    }
}
