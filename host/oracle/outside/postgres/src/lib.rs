//! Stand-in for the crate of this name: an error that never arises, since no database is asked.

#[derive(Clone, Debug)]
pub enum Error {}
