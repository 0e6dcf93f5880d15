//! The Rust's normalizer over a target that is lent once and asked many times.

use crate::answered;
use crate::data::interface::Provider;
use crate::mapper::variant::Mapper;
use crate::normalizer::{Config, Direction, Normalizer};
use crate::parser::{
    Accession, GenomeInterval, GenomeLocEdit, HgvsVariant, Mu, NaEdit, TxInterval, TxLocEdit, TxPos,
};
use crate::provider::LentTarget;
use crate::validator::{NullValidator, Validator};
use crate::Verdict;
use requests::Request;
use std::panic::{catch_unwind, AssertUnwindSafe};
use std::sync::Arc;

/// A lent target with its tables.
pub struct Lent {
    provider: Arc<dyn Provider + Send + Sync>,
    validator: Arc<dyn Validator + Send + Sync>,
    mapper: Mapper,
}

/// The Rust's normalizer over a lent target, set up for a kind, a direction and a window.
pub struct Ready<'a>(Normalizer<'a>);

/// A change as the Rust's parser would give it.
pub struct Variant(HgvsVariant);

impl Lent {
    /// Lends the request's target and tables.
    pub fn over(request: &Request) -> Option<Self> {
        let provider: Arc<dyn Provider + Send + Sync> = Arc::new(LentTarget::of(request));
        Some(Lent {
            mapper: Mapper::over(provider.clone()),
            validator: Arc::new(NullValidator::new()),
            provider,
        })
    }

    pub fn ready(&self, request: &Request) -> Ready<'_> {
        let config = Config {
            cross_boundaries: request.kind == 2,
            shuffle_direction: match request.direction {
                0 => Direction::FiveToThree,
                _ => Direction::ThreeToFive,
            },
            window_size: request.window as usize,
            replace_reference: true,
            ..Config::default()
        };
        Ready(Normalizer::new(
            &self.mapper,
            self.provider.clone(),
            self.validator.clone(),
            config,
        ))
    }
}

impl Ready<'_> {
    /// Normalizes and drops the result: what the benchmark times. True if the Rust accepted.
    pub fn normalize(&self, variant: &Variant) -> bool {
        self.0.normalize(&variant.0).is_ok()
    }

    /// What the Rust answers; a panic is told in words.
    pub fn answer(&self, variant: &Variant) -> Verdict {
        match catch_unwind(AssertUnwindSafe(|| self.0.normalize(&variant.0))) {
            Ok(Ok(normalized)) => answered::verdict_of(&normalized),
            Ok(Err(error)) => answered::verdict_of_error(&error),
            Err(_) => Verdict::Failed("the Rust panicked".to_string()),
        }
    }
}

impl Variant {
    /// The request's change as a g. or n. variant, its reference allele left for the mapper to fill
    /// in.
    pub fn of(request: &Request) -> Self {
        let edit = Mu::Certain(edit_of(request));
        let (start, end) = (request.start.wrapping_add(1), request.end);
        let (accession, gene_symbol) = (Accession, None);
        Variant(if request.kind == 0 {
            let (start, end) = (Some(start), Some(end));
            let loc = Mu::Certain(GenomeInterval { start, end });
            let loc_edit = GenomeLocEdit { loc, edit };
            HgvsVariant::GenomeVariant {
                accession,
                gene_symbol,
                loc_edit,
            }
        } else {
            let position = |base| TxPos { base, offset: None };
            let (start, end) = (position(start), position(end));
            let loc = Mu::Certain(TxInterval { start, end });
            let loc_edit = TxLocEdit { loc, edit };
            HgvsVariant::TxVariant {
                accession,
                gene_symbol,
                loc_edit,
            }
        })
    }
}

fn edit_of(request: &Request) -> NaEdit {
    let reference = String::new();
    let read = || String::from_utf8(request.alternative.clone()).expect("the Rust takes text");
    match request.edit {
        0 => NaEdit::Ins {
            alternative: read(),
        },
        1 => NaEdit::Dup { reference },
        2 => NaEdit::DelRef { reference },
        3 => NaEdit::RefAlt {
            reference,
            alternative: read(),
        },
        _ => NaEdit::InvRef { reference },
    }
}
