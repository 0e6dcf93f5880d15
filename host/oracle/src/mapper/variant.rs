//! Stand-in for the variant mapper: reference alleles come from the target; c. is not mapped.

use crate::data::interface::Provider;
use crate::normalizer::Direction;
use crate::parser::{HgvsVariant, NaEdit};
use crate::validator::ValidationLevel;
use std::sync::Arc;

/// The settings that the validator's text names. None of them is read here.
#[allow(dead_code)]
pub struct Config {
    pub replace_reference: bool,
    pub strict_validation: bool,
    pub prevalidation_level: ValidationLevel,
    pub add_gene_symbol: bool,
    pub strict_bounds: bool,
    pub renormalize_g: bool,
    pub genome_seq_available: bool,
    pub shuffle_direction: Direction,
    pub window_size: usize,
    pub ins_at_boundary_is_intronic: bool,
    pub ins_at_boundary_by_sequence: bool,
    pub shift_over_boundary: bool,
    pub shift_over_boundary_preference: Direction,
    pub inferred_p_is_uncertain: bool,
}

/// Why a variant could not be mapped.
#[derive(Debug)]
pub enum Error {
    NotMapped,
}

pub struct Mapper {
    provider: Arc<dyn Provider + Send + Sync>,
}

impl Mapper {
    pub fn new(_config: &Config, provider: Arc<dyn Provider + Send + Sync>) -> Self {
        Self::over(provider)
    }

    pub fn over(provider: Arc<dyn Provider + Send + Sync>) -> Self {
        Mapper { provider }
    }

    /// The variant with its reference allele from the target, as far as the target reaches. An
    /// insertion has none.
    pub fn replace_reference(&self, mut var: HgvsVariant) -> Result<HgvsVariant, Error> {
        let range = var.loc_range().ok_or(Error::NotMapped)?;
        match var.na_edit_mut() {
            Some(
                NaEdit::RefAlt { reference, .. }
                | NaEdit::DelRef { reference }
                | NaEdit::Dup { reference }
                | NaEdit::InvRef { reference },
            ) => {
                let (begin, end) = (range.start.max(0) as usize, range.end.max(0) as usize);
                let part = self.provider.get_seq_part("", Some(begin), Some(end));
                *reference = part.map_err(|_| Error::NotMapped)?;
                Ok(var)
            }
            _ => Ok(var),
        }
    }

    pub fn c_to_n(&self, _var: &HgvsVariant) -> Result<HgvsVariant, Error> {
        Err(Error::NotMapped)
    }

    pub fn n_to_c(&self, _var: &HgvsVariant) -> Result<HgvsVariant, Error> {
        Err(Error::NotMapped)
    }
}
