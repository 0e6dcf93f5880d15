//! The errors of the data layer are the crate's own text; the provider's interface is a stand-in.

pub mod interface;

include!(concat!(env!("OUT_DIR"), "/data_text.rs"));
