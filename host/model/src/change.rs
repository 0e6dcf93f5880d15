//! A change, its altered sequence, the trimming, and the move to the furthest place.

use crate::piece::Piece;
use crate::request::{Direction, Edit};

/// The bases between gaps `from` and `to` of the target give way to `inserted`.
#[derive(Clone, Debug, PartialEq, Eq)]
pub struct Change {
    pub from: usize,
    pub to: usize,
    pub inserted: Vec<u8>,
}

/// A change at its final place, and the pairs of bases compared in the move.
pub struct Moved {
    pub change: Change,
    pub probes: u32,
}

impl Change {
    /// The change that a request spells.
    pub fn spelled(
        target: &[u8],
        edit: Edit,
        start: usize,
        end: usize,
        alternative: &[u8],
    ) -> Self {
        let bases = &target[start..end];
        let (from, to, inserted) = match edit {
            Edit::Insertion => (start + 1, start + 1, alternative.to_vec()),
            Edit::Duplication => (end, end, bases.to_vec()),
            Edit::Deletion => (start, end, Vec::new()),
            Edit::Replacement => (start, end, alternative.to_vec()),
            Edit::Inversion => (start, end, reverse_complement(bases)),
        };
        Change { from, to, inserted }
    }

    /// How many reference bases the change has.
    pub fn size(&self) -> usize {
        self.to - self.from
    }

    pub fn is_insertion(&self) -> bool {
        self.size() == 0 && !self.inserted.is_empty()
    }

    /// The target with the change made.
    pub fn altered(&self, target: &[u8]) -> Vec<u8> {
        [&target[..self.from], &self.inserted, &target[self.to..]].concat()
    }

    fn without_common_prefix(self, target: &[u8]) -> Self {
        let common = agreeing(&target[self.from..self.to], &self.inserted);
        Change {
            from: self.from + common,
            to: self.to,
            inserted: self.inserted[common..].to_vec(),
        }
    }

    fn without_common_suffix(self, target: &[u8]) -> Self {
        let common = agreeing_back(&target[self.from..self.to], &self.inserted);
        Change {
            from: self.from,
            to: self.to - common,
            inserted: self.inserted[..self.inserted.len() - common].to_vec(),
        }
    }

    /// Rightward the common prefix is trimmed first, leftward the common suffix.
    fn trimmed(self, target: &[u8], direction: Direction) -> Self {
        match direction {
            Direction::Rightward => self
                .without_common_prefix(target)
                .without_common_suffix(target),
            Direction::Leftward => self
                .without_common_suffix(target)
                .without_common_prefix(target),
        }
    }
}

/// How many bases two sequences have in common at their front.
fn agreeing(a: &[u8], b: &[u8]) -> usize {
    a.iter().zip(b).take_while(|(x, y)| x == y).count()
}

/// How many bases two sequences have in common at their back.
fn agreeing_back(a: &[u8], b: &[u8]) -> usize {
    let pairs = a.iter().rev().zip(b.iter().rev());
    pairs.take_while(|(x, y)| x == y).count()
}

fn complement(base: u8) -> u8 {
    match base {
        b'A' => b'T',
        b'C' => b'G',
        b'G' => b'C',
        _ => b'A',
    }
}

pub fn reverse_complement(bases: &[u8]) -> Vec<u8> {
    bases.iter().rev().map(|&base| complement(base)).collect()
}

/// Every place for a change of one size that gives one altered sequence.
///
/// A change at place q leaves the first q bases and the last L - q - size bases as they are, so it
/// gives the altered sequence exactly if target and altered sequence agree on both.
struct Places {
    before: usize,
    after: usize,
    length: usize,
    size: usize,
}

impl Places {
    fn of(target: &[u8], altered: &[u8], size: usize) -> Self {
        Places {
            before: agreeing(target, altered),
            after: agreeing_back(target, altered),
            length: target.len(),
            size,
        }
    }

    fn hold(&self, place: usize) -> bool {
        place <= self.before && self.length - place - self.size <= self.after
    }

    /// Whether a change at this place lies inside both piece and target.
    fn inside(&self, piece: &Piece, place: usize) -> bool {
        piece.left <= place && place + self.size <= piece.right.min(self.length)
    }
}

fn next(place: usize, direction: Direction) -> Option<usize> {
    match direction {
        Direction::Rightward => Some(place + 1),
        Direction::Leftward => place.checked_sub(1),
    }
}

/// The change trimmed and, if an allele is then empty, moved one base at a time while the altered
/// sequence stays the same and the change stays inside both piece and target.
pub fn moved(target: &[u8], piece: &Piece, direction: Direction, spelled: &Change) -> Moved {
    let change = spelled.clone().trimmed(target, direction);
    if change.size() > 0 && !change.inserted.is_empty() {
        return Moved { change, probes: 0 };
    }
    let altered = change.altered(target);
    let places = Places::of(target, &altered, change.size());
    let (mut place, mut probes) = (change.from, 0);
    while let Some(further) = next(place, direction).filter(|&q| places.inside(piece, q)) {
        probes += 1;
        if !places.hold(further) {
            break;
        }
        place = further;
    }
    let inserted = altered[place..place + change.inserted.len()].to_vec();
    let to = place + change.size();
    let change = Change {
        from: place,
        to,
        inserted,
    };
    Moved { change, probes }
}

#[cfg(test)]
mod tests {
    use super::*;

    fn words(letters: &[u8], length: usize) -> Vec<Vec<u8>> {
        let mut words = vec![Vec::new()];
        for _ in 0..length {
            words = words
                .iter()
                .flat_map(|w| letters.iter().map(|&c| [w.as_slice(), &[c]].concat()))
                .collect();
        }
        words
    }

    /// Places hold exactly where the altered sequence, built anew, is the same.
    #[test]
    fn places_hold_where_the_altered_sequence_is_the_same() {
        for target in words(b"AC", 6) {
            for (from, size, gained) in [(0, 0, 1), (2, 0, 2), (3, 1, 0), (1, 2, 0), (5, 0, 3)] {
                for inserted in words(b"AC", gained) {
                    let to = from + size;
                    let change = Change { from, to, inserted };
                    let altered = change.altered(&target);
                    let places = Places::of(&target, &altered, size);
                    for place in 0..=target.len() - size {
                        let inserted = altered[place..place + gained].to_vec();
                        let to = place + size;
                        let from = place;
                        let there = Change { from, to, inserted };
                        assert_eq!(places.hold(place), there.altered(&target) == altered);
                    }
                }
            }
        }
    }
}
