//! Stand-in for the parser's types: what the normalizer's text names of them.

use crate::validator::{Error, Validateable};
use std::fmt;
use std::ops::Range;

/// Something certain or uncertain. Nothing here is made uncertain.
#[derive(Clone, Debug, PartialEq)]
pub enum Mu<T> {
    Certain(T),
}

impl<T> Mu<T> {
    pub fn is_certain(&self) -> bool {
        let Mu::Certain(_) = self;
        true
    }

    fn inner(&self) -> &T {
        let Mu::Certain(inner) = self;
        inner
    }

    fn inner_mut(&mut self) -> &mut T {
        let Mu::Certain(inner) = self;
        inner
    }
}

/// The accession. There is one target, so it says nothing.
#[derive(Clone, Debug, PartialEq)]
pub struct Accession;

#[derive(Clone, Debug, PartialEq)]
pub struct GeneSymbol;

/// What is done to the bases of a location.
#[allow(dead_code)]
#[derive(Clone, Debug, PartialEq)]
pub enum NaEdit {
    RefAlt {
        reference: String,
        alternative: String,
    },
    NumAlt {
        count: i32,
        alternative: String,
    },
    DelRef {
        reference: String,
    },
    DelNum {
        count: i32,
    },
    Ins {
        alternative: String,
    },
    Dup {
        reference: String,
    },
    InvRef {
        reference: String,
    },
    InvNum {
        count: i32,
    },
}

#[derive(Clone, Debug, PartialEq)]
pub struct GenomeInterval {
    pub start: Option<i32>,
    pub end: Option<i32>,
}

pub type MtInterval = GenomeInterval;

#[derive(Clone, Debug, PartialEq)]
pub struct TxPos {
    pub base: i32,
    pub offset: Option<i32>,
}

pub type RnaPos = TxPos;

#[derive(Clone, Debug, PartialEq)]
pub struct TxInterval {
    pub start: TxPos,
    pub end: TxPos,
}

pub type RnaInterval = TxInterval;

#[derive(Clone, Debug, PartialEq)]
pub struct GenomeLocEdit {
    pub loc: Mu<GenomeInterval>,
    pub edit: Mu<NaEdit>,
}

pub type MtLocEdit = GenomeLocEdit;

#[derive(Clone, Debug, PartialEq)]
pub struct TxLocEdit {
    pub loc: Mu<TxInterval>,
    pub edit: Mu<NaEdit>,
}

pub type RnaLocEdit = TxLocEdit;

/// A variant. The text names all of these; only g. and n. variants are made here.
#[allow(dead_code, clippy::enum_variant_names)]
#[derive(Clone, Debug, PartialEq)]
pub enum HgvsVariant {
    CdsVariant {},
    GenomeVariant {
        accession: Accession,
        gene_symbol: Option<GeneSymbol>,
        loc_edit: GenomeLocEdit,
    },
    MtVariant {
        accession: Accession,
        gene_symbol: Option<GeneSymbol>,
        loc_edit: MtLocEdit,
    },
    TxVariant {
        accession: Accession,
        gene_symbol: Option<GeneSymbol>,
        loc_edit: TxLocEdit,
    },
    ProtVariant {},
    RnaVariant {
        accession: Accession,
        gene_symbol: Option<GeneSymbol>,
        loc_edit: RnaLocEdit,
    },
}

impl HgvsVariant {
    pub fn accession(&self) -> &str {
        ""
    }

    pub fn mu_na_edit(&self) -> Option<&Mu<NaEdit>> {
        match self {
            HgvsVariant::GenomeVariant { loc_edit, .. }
            | HgvsVariant::MtVariant { loc_edit, .. } => Some(&loc_edit.edit),
            HgvsVariant::TxVariant { loc_edit, .. } | HgvsVariant::RnaVariant { loc_edit, .. } => {
                Some(&loc_edit.edit)
            }
            HgvsVariant::CdsVariant {} | HgvsVariant::ProtVariant {} => None,
        }
    }

    pub fn na_edit(&self) -> Option<&NaEdit> {
        self.mu_na_edit().map(Mu::inner)
    }

    pub fn na_edit_mut(&mut self) -> Option<&mut NaEdit> {
        match self {
            HgvsVariant::GenomeVariant { loc_edit, .. }
            | HgvsVariant::MtVariant { loc_edit, .. } => Some(loc_edit.edit.inner_mut()),
            HgvsVariant::TxVariant { loc_edit, .. } | HgvsVariant::RnaVariant { loc_edit, .. } => {
                Some(loc_edit.edit.inner_mut())
            }
            HgvsVariant::CdsVariant {} | HgvsVariant::ProtVariant {} => None,
        }
    }

    /// The location, 0-based and half-open.
    pub fn mu_loc_range(&self) -> Option<Mu<Range<i32>>> {
        self.loc_range().map(Mu::Certain)
    }

    pub fn loc_range(&self) -> Option<Range<i32>> {
        match self {
            HgvsVariant::GenomeVariant { loc_edit, .. }
            | HgvsVariant::MtVariant { loc_edit, .. } => {
                let interval = loc_edit.loc.inner();
                Some(interval.start?.wrapping_sub(1)..interval.end?)
            }
            HgvsVariant::TxVariant { loc_edit, .. } | HgvsVariant::RnaVariant { loc_edit, .. } => {
                let interval = loc_edit.loc.inner();
                Some(interval.start.base.wrapping_sub(1)..interval.end.base)
            }
            HgvsVariant::CdsVariant {} | HgvsVariant::ProtVariant {} => None,
        }
    }

    /// Whether a position has an offset into an intron.
    pub fn spans_intron(&self) -> bool {
        match self {
            HgvsVariant::TxVariant { loc_edit, .. } | HgvsVariant::RnaVariant { loc_edit, .. } => {
                let interval = loc_edit.loc.inner();
                interval.start.offset.is_some() || interval.end.offset.is_some()
            }
            _ => false,
        }
    }
}

impl fmt::Display for HgvsVariant {
    fn fmt(&self, f: &mut fmt::Formatter<'_>) -> fmt::Result {
        write!(f, "{:?} at {:?}", self.na_edit(), self.loc_range())
    }
}

impl Validateable for HgvsVariant {
    fn validate(&self) -> Result<(), Error> {
        Ok(())
    }
}

/// Where a variant lies, for the validator's warnings.
pub fn location(variant: &HgvsVariant) -> String {
    format!("{:?}", variant.loc_range())
}
