//! Rows 1 to 10 of the table of refusals, in their order.

use crate::piece;
use crate::request::{Edit, Kind, Request};

/// The longest target.
pub const TARGET_LIMIT: usize = 65_535;
/// The widest window.
pub const WINDOW_LIMIT: u32 = 1_024;
/// The longest range, and the longest alternative that is read.
pub const ALLELE_LIMIT: usize = 1_024;
/// The most exons.
pub const EXON_LIMIT: usize = 512;
/// The room that each answer buffer must have.
pub const ROOM: usize = 1_025;

/// The first of rows 1 to 10 that is given, as an error.
pub fn rows_1_to_10(request: &Request) -> Result<(), u32> {
    let (Some(kind), Some(edit), Some(_)) = (request.kind(), request.edit(), request.direction())
    else {
        return Err(1);
    };
    let rows = [
        (2, request.window == 0 || request.window > WINDOW_LIMIT),
        (
            3,
            request.target.is_empty() || request.target.len() > TARGET_LIMIT,
        ),
        (4, !are_bases(request.target)),
        (5, out_of_bounds(request)),
        (6, edit == Edit::Insertion && bad_insertion(request)),
        (7, too_long(request, edit)),
        (8, !are_bases(read_alternative(request, edit))),
        (
            9,
            request.reference_room < ROOM || request.alternative_room < ROOM,
        ),
        (10, kind == Kind::Transcript && !piece::tables_hold(request)),
    ];
    match rows.iter().find(|(_, given)| *given) {
        Some((row, _)) => Err(*row),
        None => Ok(()),
    }
}

/// Whether every byte is A, C, G or T.
fn are_bases(bytes: &[u8]) -> bool {
    bytes.iter().all(|byte| b"ACGT".contains(byte))
}

fn read_alternative<'a>(request: &Request<'a>, edit: Edit) -> &'a [u8] {
    if edit.reads_alternative() {
        request.alternative
    } else {
        &[]
    }
}

fn out_of_bounds(request: &Request) -> bool {
    request.start < 0
        || request.end <= request.start
        || i64::from(request.end) > request.target.len() as i64
}

fn bad_insertion(request: &Request) -> bool {
    i64::from(request.end) != i64::from(request.start) + 2 || request.alternative.is_empty()
}

fn too_long(request: &Request, edit: Edit) -> bool {
    i64::from(request.end) - i64::from(request.start) > ALLELE_LIMIT as i64
        || read_alternative(request, edit).len() > ALLELE_LIMIT
}
