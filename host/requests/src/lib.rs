//! The requests that the runner and the recorder put: all small ones, random ones around every
//! limit, damaged ones; and the rule that says which of them the Rust can be asked.

pub mod comparison;
pub mod damaged;
pub mod exhaustive;
pub mod random;
mod request;
mod rng;
pub mod tables;

pub use request::{letters, Request};
pub use rng::Rng;

/// What a generator does with each request; false ends it.
pub type Visit<'a> = &'a mut dyn FnMut(&Request) -> bool;
