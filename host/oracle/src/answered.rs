//! The Rust's result in the numbers of docs/RULES.md.

use crate::normalizer::Error;
use crate::parser::{HgvsVariant, NaEdit};
use crate::{Answer, Verdict};

/// The class that an edit of a result is called by, with its two alleles.
fn class_and_alleles(edit: &NaEdit) -> Option<(u32, &str, &str)> {
    match edit {
        NaEdit::Ins { alternative } => Some((1, "", alternative)),
        NaEdit::Dup { reference } => Some((2, reference, "")),
        NaEdit::DelRef { reference } => Some((3, reference, "")),
        NaEdit::RefAlt {
            reference,
            alternative,
        } => {
            let class = if reference == alternative { 6 } else { 4 };
            Some((class, reference, alternative))
        }
        NaEdit::InvRef { reference } => Some((5, reference, "")),
        NaEdit::NumAlt { .. } | NaEdit::DelNum { .. } | NaEdit::InvNum { .. } => None,
    }
}

pub fn verdict_of(normalized: &HgvsVariant) -> Verdict {
    let range = normalized.loc_range();
    let named = normalized.na_edit().and_then(class_and_alleles);
    match (range, named) {
        (Some(range), Some((class, reference, alternative))) => Verdict::Answered(Answer {
            class,
            start: range.start + 1,
            end: range.end,
            reference: reference.to_string(),
            alternative: alternative.to_string(),
        }),
        _ => Verdict::Failed(format!("a result that has no class: {normalized}")),
    }
}

pub fn verdict_of_error(error: &Error) -> Verdict {
    match error {
        Error::CoordinatesOutOfBounds(_) => Verdict::Refused(5),
        Error::ExonNotFoundForStart(_) => Verdict::Refused(12),
        Error::ExonNotFoundForEnd(_) => Verdict::Refused(13),
        Error::ExonIntronBoundary(_) => Verdict::Refused(14),
        Error::UtrExonBoundary(_) => Verdict::Refused(15),
        Error::VariantSpanOutsideSequenceBounds(_) => Verdict::Refused(16),
        other => Verdict::Failed(other.to_string()),
    }
}
