//! The exon table, its rules, and the piece inside which a change may move: rows 10 and 12 to 15.

use crate::request::{Kind, Request};
use crate::rows::EXON_LIMIT;

/// Where a change may move: from gap `left` up to gap `right`.
#[derive(Clone, Copy, Debug, PartialEq, Eq)]
pub struct Piece {
    pub left: usize,
    pub right: usize,
}

impl Piece {
    /// The piece of open and crossing targets.
    const WHOLE: Piece = Piece {
        left: 0,
        right: 2_147_483_647,
    };

    /// The piece of a request that passed rows 1 to 10, or the row of 12 to 15 that refuses it.
    pub fn of(request: &Request, kind: Kind) -> Result<Piece, u32> {
        match kind {
            Kind::Open | Kind::Crossing => Ok(Piece::WHOLE),
            Kind::Transcript => Piece::of_transcript(request),
        }
    }

    fn of_transcript(request: &Request) -> Result<Piece, u32> {
        let (start, end) = (request.start as usize, request.end as usize);
        let exons = exons(request.exons);
        let of_start = exons
            .iter()
            .position(|x| x.left <= start && start < x.right);
        let of_end = exons.iter().position(|x| x.left < end && end <= x.right);
        let of_start = of_start.ok_or(12u32)?;
        if of_start != of_end.ok_or(13u32)? {
            return Err(14);
        }
        exons[of_start]
            .cut(request.cds_start, start, end)?
            .cut(request.cds_end, start, end)
    }

    /// The part of the piece on the range's side of a CDS bound; row 15 where the range has bases
    /// on both sides.
    fn cut(self, bound: i64, start: usize, end: usize) -> Result<Piece, u32> {
        let Some(bound) = present(bound) else {
            return Ok(self);
        };
        let bound = bound as usize;
        if end <= bound {
            Ok(Piece {
                right: self.right.min(bound),
                ..self
            })
        } else if start >= bound {
            Ok(Piece {
                left: self.left.max(bound),
                ..self
            })
        } else {
            Err(15)
        }
    }
}

/// A CDS bound: -1 is absent.
fn present(bound: i64) -> Option<i64> {
    (bound != -1).then_some(bound)
}

/// The whole pairs that a table's bytes hold, as 32-bit little-endian numbers.
fn exons(bytes: &[u8]) -> Vec<Piece> {
    let number = |b: &[u8]| u32::from_le_bytes([b[0], b[1], b[2], b[3]]) as usize;
    bytes
        .chunks_exact(8)
        .map(|pair| Piece {
            left: number(&pair[..4]),
            right: number(&pair[4..]),
        })
        .collect()
}

/// Whether no table rule is broken.
pub fn tables_hold(request: &Request) -> bool {
    let size = request.target.len();
    let exons = exons(request.exons);
    request.exons.len().is_multiple_of(8)
        && (1..=EXON_LIMIT).contains(&exons.len())
        && exons.iter().all(|exon| exon.left < exon.right)
        && exons.windows(2).all(|two| two[0].right <= two[1].left)
        && exons.last().is_some_and(|last| last.right == size)
        && bounds_hold(
            present(request.cds_start),
            present(request.cds_end),
            size as i64,
        )
}

fn bounds_hold(cds_start: Option<i64>, cds_end: Option<i64>, size: i64) -> bool {
    let in_target = |bound: Option<i64>| bound.is_none_or(|b| (0..=size).contains(&b));
    let in_order = match (cds_start, cds_end) {
        (Some(start), Some(end)) => start <= end,
        _ => true,
    };
    in_target(cds_start) && in_target(cds_end) && in_order
}
