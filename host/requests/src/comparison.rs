//! The one rule that says which requests the Rust can be asked: all inside the domain of docs/RULES.md, and
//! those of row 5 that it refuses as well. Each exception stands here with its reason.

use crate::Request;
use model::Edit;

/// Why the Rust is not asked.
#[derive(Clone, Copy, Debug, PartialEq, Eq)]
pub enum Outside {
    AddedRow,
    EmptyRange,
    OpenEnd,
    IdentityFirst,
    NoText,
}

impl Outside {
    pub const ALL: [Outside; 5] = [
        Outside::AddedRow,
        Outside::EmptyRange,
        Outside::OpenEnd,
        Outside::IdentityFirst,
        Outside::NoText,
    ];

    pub fn reason(self) -> &'static str {
        match self {
            Outside::AddedRow => {
                "rows 1 to 4 and 6 to 10 are added by design: the Rust has no such codes, limits \
                 and tables, and takes an empty insertion as no change"
            }
            Outside::EmptyRange => {
                "an empty range is refused by row 5; the Rust's parser gives none, and its \
                 `len - 1` wraps at an end of 0"
            }
            Outside::OpenEnd => {
                "the Rust tests the range's end on transcripts alone: it lets a g. insertion pass \
                 L and finds another error for the other edits"
            }
            Outside::IdentityFirst => {
                "the Rust returns a replacement by the same bases, as far as the target has \
                 them, before it looks at the range"
            }
            Outside::NoText => "the Rust takes letters, and the alternative is none",
        }
    }
}

/// Why the Rust is not asked for this request, whose refusal by the rules is given (0 for none).
pub fn outside(request: &Request, refusal: u32) -> Option<Outside> {
    match refusal {
        1..=4 | 6..=10 => Some(Outside::AddedRow),
        5 => outside_in_row_5(request),
        _ => None,
    }
}

fn outside_in_row_5(request: &Request) -> Option<Outside> {
    let below = request.start < 0;
    if !request.alternative.is_ascii() {
        Some(Outside::NoText)
    } else if !below && request.end <= request.start {
        Some(Outside::EmptyRange)
    } else if !below && request.kind == 0 {
        Some(Outside::OpenEnd)
    } else if request.edit == Edit::Replacement as u32 && same_as_the_bases_there(request) {
        Some(Outside::IdentityFirst)
    } else {
        None
    }
}

/// Whether the alternative equals the range's bases, as far as the target has them.
fn same_as_the_bases_there(request: &Request) -> bool {
    let in_target = |position: i32| (position.max(0) as usize).min(request.target.len());
    let end = in_target(request.end);
    let start = in_target(request.start).min(end);
    request.target[start..end] == request.alternative
}
