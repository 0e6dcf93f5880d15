//! The rules of docs/RULES.md as plain Rust, written from the sentences alone: what is answered to a request.
//!
//! The order of [`verdict`] is the order of the document: the rows of the table, the two requests
//! that are answered at once, the piece, the move, the class and the end rules. Clarity goes before
//! speed everywhere.

mod answer;
mod change;
mod piece;
mod reply;
mod request;
mod rows;

pub use answer::{Answer, Class};
pub use reply::{reply, Reply};
pub use request::{Direction, Edit, Kind, Request};
pub use rows::{ALLELE_LIMIT, EXON_LIMIT, ROOM, TARGET_LIMIT, WINDOW_LIMIT};

use change::{moved, Change, Moved};
use piece::Piece;

/// What comes back of a request: a row's number, or an answer.
#[derive(Clone, Debug, PartialEq, Eq)]
pub enum Verdict {
    Refused(u32),
    Answered(Answer),
}

/// What the rules answer to a request.
pub fn verdict(request: &Request) -> Verdict {
    match judged(request) {
        Ok(answer) => Verdict::Answered(answer),
        Err(row) => Verdict::Refused(row),
    }
}

fn judged(request: &Request) -> Result<Answer, u32> {
    rows::rows_1_to_10(request)?;
    let kind = request.kind().expect("row 1 tests the kind");
    let edit = request.edit().expect("row 1 tests the edit");
    let direction = request.direction().expect("row 1 tests the direction");
    let (start, end) = (request.start as usize, request.end as usize);
    if edit == Edit::Replacement {
        if let Some(answer) = answer::at_once(request.target, start, end, request.alternative) {
            return Ok(answer);
        }
    }
    let piece = Piece::of(request, kind)?;
    let change = Change::spelled(request.target, edit, start, end, request.alternative);
    let Moved { change, probes } = moved(request.target, &piece, direction, &change);
    if leaves_target(request.target, &piece, direction, &change) {
        return Err(16);
    }
    let named = answer::named(request.target, &piece, direction, &change, probes);
    let first = answer::first_base_rule(request.target, named);
    Ok(answer::last_base_rule(request.target, kind, first))
}

/// Row 16: leftward, a pure insertion of k bases at gap g, in a piece that reaches past the target,
/// with g+k above L.
fn leaves_target(target: &[u8], piece: &Piece, direction: Direction, change: &Change) -> bool {
    direction == Direction::Leftward
        && change.is_insertion()
        && piece.right > target.len()
        && change.from + change.inserted.len() > target.len()
}
