//! Sundrimel brings a sequence variant to its normal form.
//!
//! A change to a DNA sequence can often be spelled in several places: in `CAAAT` it does not show
//! which A was deleted. The nomenclature asks for one place, the furthest rightward, and for the
//! plainest name. This crate is the safe Rust side of the proved normalizer: it lends the request's
//! slices to the exported entry, keeps the two answer buffers, and turns numbers into types.
//!
//! ```
//! use sundrimel::{Class, Direction, Edit, Kind, Normalizer, Refusal, Request};
//!
//! let mut normalizer = Normalizer::new();
//! let request = Request {
//!     target: b"CAAATGGTACCA",
//!     kind: Kind::Open,
//!     start: 1,
//!     end: 2,
//!     edit: Edit::Deletion,
//!     direction: Direction::Rightward,
//!     window: 20,
//! };
//!
//! // The first of the three A is deleted: the same as deleting the last, base 4.
//! let answer = normalizer.normalize(&request)?;
//! assert_eq!(answer.class, Class::Deletion);
//! assert_eq!((answer.start, answer.end), (4, 4));
//! assert_eq!(answer.reference, b"A");
//! assert_eq!(answer.probes, 3);
//!
//! // A range past the target's end is refused.
//! let refused = normalizer.normalize(&Request { end: 13, ..request });
//! assert_eq!(refused, Err(Refusal::CoordinatesOutOfBounds));
//! # Ok::<(), Refusal>(())
//! ```

mod answer;
mod request;

#[doc(hidden)]
pub mod raw;

pub use answer::{Answer, Class, Refusal};
pub use request::{exon_bytes, Direction, Edit, Kind, Request, Tables};

/// The room that the entry asks for in each answer buffer.
const ROOM: usize = 1_025;

/// The two buffers into which the entry writes an answer's alleles.
///
/// One `Normalizer` serves any number of requests, one after the other; an [`Answer`] borrows its
/// alleles from it.
#[derive(Clone, Debug)]
pub struct Normalizer {
    reference: [u8; ROOM],
    alternative: [u8; ROOM],
}

impl Normalizer {
    pub fn new() -> Self {
        Normalizer {
            reference: [0; ROOM],
            alternative: [0; ROOM],
        }
    }

    /// The normal form of the request's change, or the first row of the table of refusals that the
    /// request meets.
    ///
    /// ```
    /// use sundrimel::{exon_bytes, Class, Direction, Edit, Kind, Normalizer, Request, Tables};
    ///
    /// // The exon ends after base 5, and a change does not leave its exon.
    /// let exons = exon_bytes(&[(0, 5), (5, 12)]);
    /// let mut normalizer = Normalizer::new();
    /// let answer = normalizer.normalize(&Request {
    ///     target: b"CAAAAAGTACCA",
    ///     kind: Kind::Transcript(Tables { exons: &exons, cds_start: None, cds_end: None }),
    ///     start: 1,
    ///     end: 3,
    ///     edit: Edit::Insertion(b"A"),
    ///     direction: Direction::Rightward,
    ///     window: 20,
    /// }).unwrap();
    /// assert_eq!(answer.class, Class::Duplication);
    /// assert_eq!((answer.start, answer.end), (5, 5));
    /// ```
    pub fn normalize(&mut self, request: &Request<'_>) -> Result<Answer<'_>, Refusal> {
        let tables = request.kind.tables();
        let numbers = raw::normalize(
            request.target,
            request.kind.code(),
            tables.exons,
            Tables::bound(tables.cds_start),
            Tables::bound(tables.cds_end),
            request.start,
            request.end,
            request.edit.code(),
            request.edit.alternative(),
            request.direction.code(),
            request.window,
            &mut self.reference,
            &mut self.alternative,
        );
        match Refusal::from_number(numbers.refusal) {
            Some(refusal) => Err(refusal),
            None => Ok(self.answer(&numbers)),
        }
    }

    fn answer(&self, numbers: &raw::Answer) -> Answer<'_> {
        Answer {
            class: Class::from_number(numbers.class).expect("an answer has one of six classes"),
            start: numbers.start,
            end: numbers.end,
            probes: numbers.probes,
            reference: &self.reference[..numbers.reference_len as usize],
            alternative: &self.alternative[..numbers.alternative_len as usize],
        }
    }
}

impl Default for Normalizer {
    fn default() -> Self {
        Self::new()
    }
}
