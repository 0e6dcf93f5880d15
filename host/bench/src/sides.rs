//! The two sides that are timed, each with its requests made ready.

use oracle::{Lent, Ready, Variant};
use requests::Request as Asked;
use std::hint::black_box;
use sundrimel::{Direction, Edit, Kind, Normalizer, Request, Tables};

/// The product through its safe wrapper.
pub struct Product<'a>(Vec<Request<'a>>);

impl<'a> Product<'a> {
    /// All requests over the first one's target and tables, which the others share.
    pub fn new(requests: &'a [Asked]) -> Self {
        let over = |asked: &'a Asked| spelled(&requests[0], asked);
        Product(requests.iter().map(over).collect())
    }

    /// Puts every request once.
    pub fn runner(&self) -> impl FnMut() + '_ {
        let mut normalizer = Normalizer::new();
        move || {
            for request in &self.0 {
                let _ = black_box(normalizer.normalize(black_box(request)));
            }
        }
    }
}

fn spelled<'a>(lent: &'a Asked, asked: &'a Asked) -> Request<'a> {
    let bound = |bound: i64| u32::try_from(bound).ok();
    Request {
        target: &lent.target,
        kind: match asked.kind {
            0 => Kind::Open,
            1 => Kind::Transcript(Tables {
                exons: &lent.exons,
                cds_start: bound(lent.cds_start),
                cds_end: bound(lent.cds_end),
            }),
            _ => Kind::Crossing,
        },
        start: asked.start,
        end: asked.end,
        edit: match asked.edit {
            0 => Edit::Insertion(&asked.alternative),
            1 => Edit::Duplication,
            2 => Edit::Deletion,
            3 => Edit::Replacement(&asked.alternative),
            _ => Edit::Inversion,
        },
        direction: match asked.direction {
            0 => Direction::Rightward,
            _ => Direction::Leftward,
        },
        window: asked.window,
    }
}

/// The Rust, with its target lent once.
pub struct Rust<'a> {
    lent: Lent,
    requests: &'a [Asked],
}

impl<'a> Rust<'a> {
    /// None where the text of the Rust is not at hand.
    pub fn new(requests: &'a [Asked]) -> Option<Self> {
        let lent = Lent::over(&requests[0])?;
        Some(Rust { lent, requests })
    }

    /// Puts every request once. Settings and variants are made beforehand.
    pub fn runner(&self) -> impl FnMut() + '_ {
        let made = |asked| (self.lent.ready(asked), Variant::of(asked));
        let ready: Vec<(Ready, Variant)> = self.requests.iter().map(made).collect();
        move || {
            for (ready, variant) in &ready {
                black_box(ready.normalize(black_box(variant)));
            }
        }
    }
}
