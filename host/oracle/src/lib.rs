//! The Rust being carried, asked as docs/RULES.md asks.
//!
//! Its text (normalizer.rs, sequences.rs, validator and data errors) is compiled unchanged from the
//! place that build.rs found; the other modules are stand-ins for what that text names, and the way
//! from a request to it and back. Where the text was not at hand, [`Oracle::new`] gives none.
//!
//! It may be asked the requests that `requests::comparison` lets through.

mod oracle;
mod verdict;

#[cfg(text_at_hand)]
mod answered;
#[cfg(text_at_hand)]
mod data;
#[cfg(text_at_hand)]
mod lent;
#[cfg(text_at_hand)]
mod mapper;
#[cfg(text_at_hand)]
mod parser;
#[cfg(text_at_hand)]
mod provider;

#[cfg(not(text_at_hand))]
mod absent;

#[cfg(text_at_hand)]
include!(concat!(env!("OUT_DIR"), "/text.rs"));

pub use oracle::Oracle;
pub use verdict::{Answer, Verdict};

#[cfg(not(text_at_hand))]
pub use absent::{Lent, Ready, Variant};
#[cfg(text_at_hand)]
pub use lent::{Lent, Ready, Variant};

/// What a program says that needs the text where it is missing.
pub const NOT_AT_HAND: &str = "the text of the Rust was not at hand when this was built: set \
    SUNDRIMEL_ORACLE_SRC to the folder that holds src/normalizer.rs and build again";
