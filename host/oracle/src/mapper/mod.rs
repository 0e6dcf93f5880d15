//! Stand-in for the mapper.

pub mod variant;
