//! The reply of the entry to a verdict: seven numbers, and what is written into the two buffers.

use crate::{Answer, Verdict};

/// The numbers that the entry returns, in its order.
#[repr(C)]
#[derive(Clone, Copy, Debug, Default, PartialEq, Eq)]
pub struct Reply {
    pub refusal: u32,
    pub class: u32,
    pub start: u32,
    pub end: u32,
    pub probes: u32,
    pub reference_len: u32,
    pub alternative_len: u32,
}

/// A refusal returns its number and zeros and writes nothing; an answer writes each allele from
/// byte 0 and nothing after it.
pub fn reply(verdict: &Verdict, reference_out: &mut [u8], alternative_out: &mut [u8]) -> Reply {
    match verdict {
        Verdict::Refused(row) => Reply {
            refusal: *row,
            ..Reply::default()
        },
        Verdict::Answered(answer) => {
            reference_out[..answer.reference.len()].copy_from_slice(&answer.reference);
            alternative_out[..answer.alternative.len()].copy_from_slice(&answer.alternative);
            numbers(answer)
        }
    }
}

fn numbers(answer: &Answer) -> Reply {
    Reply {
        refusal: 0,
        class: answer.class as u32,
        start: answer.start as u32,
        end: answer.end as u32,
        probes: answer.probes,
        reference_len: answer.reference.len() as u32,
        alternative_len: answer.alternative.len() as u32,
    }
}
