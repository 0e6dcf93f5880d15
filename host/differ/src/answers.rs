//! The three answers to one request, and whether they agree.

use model::Verdict;
use oracle::{Oracle, Verdict as OfTheRust};
use requests::comparison::{outside, Outside};
use requests::{letters, Request};
use std::fmt;
use sundrimel::raw;

/// What stands in the buffers before the call: by its place, a byte that is no base.
const BEFORE: [u8; 4_096] = {
    let mut bytes = [0; 4_096];
    let mut place = 0;
    while place < bytes.len() {
        bytes[place] = (place % 61) as u8;
        place += 1;
    }
    bytes
};

/// What a side gave back: its numbers, and both buffers with what was in them before.
#[derive(Clone, Debug, Default, PartialEq, Eq)]
pub struct Seen {
    pub numbers: raw::Answer,
    pub reference: Vec<u8>,
    pub alternative: Vec<u8>,
}

/// The three answers. Why the Rust was not asked stands in its place.
pub struct Answers<'a> {
    pub product: &'a Seen,
    pub model: &'a Seen,
    pub rust: Result<OfTheRust, Outside>,
    rust_agrees: bool,
}

/// Asks all three. Keeps the Rust's target and the buffers between requests.
pub struct Asker {
    rust: Oracle,
    product: Seen,
    model: Seen,
}

impl Asker {
    /// None where the text of the Rust is not at hand.
    pub fn new() -> Option<Self> {
        let rust = Oracle::new()?;
        Some(Asker {
            rust,
            product: Seen::default(),
            model: Seen::default(),
        })
    }

    pub fn ask(&mut self, request: &Request) -> Answers<'_> {
        let verdict = model::verdict(&request.lent());
        self.product.ask_product(request);
        self.model.take_model(request, &verdict);
        let rust = match outside(request, self.model.numbers.refusal) {
            Some(reason) => Err(reason),
            None => Ok(self.rust.answer(request)),
        };
        let rust_agrees = rust.as_ref().map_or(true, |seen| same(seen, &verdict));
        Answers {
            product: &self.product,
            model: &self.model,
            rust,
            rust_agrees,
        }
    }
}

impl Seen {
    /// Buffers of the request's sizes, with the bytes before the call in them.
    fn lay_out(&mut self, request: &Request) {
        self.reference.clear();
        self.reference
            .extend_from_slice(&BEFORE[..request.reference_room]);
        self.alternative.clear();
        self.alternative
            .extend_from_slice(&BEFORE[..request.alternative_room]);
    }

    fn ask_product(&mut self, request: &Request) {
        self.lay_out(request);
        self.numbers = raw::normalize(
            &request.target,
            request.kind,
            &request.exons,
            request.cds_start,
            request.cds_end,
            request.start,
            request.end,
            request.edit,
            &request.alternative,
            request.direction,
            request.window,
            &mut self.reference,
            &mut self.alternative,
        );
    }

    fn take_model(&mut self, request: &Request, verdict: &Verdict) {
        self.lay_out(request);
        let reply = model::reply(verdict, &mut self.reference, &mut self.alternative);
        self.numbers = raw::Answer {
            refusal: reply.refusal,
            class: reply.class,
            start: reply.start,
            end: reply.end,
            probes: reply.probes,
            reference_len: reply.reference_len,
            alternative_len: reply.alternative_len,
        };
    }
}

/// Whether the Rust's verdict is the model's; it counts no probes.
fn same(rust: &OfTheRust, verdict: &Verdict) -> bool {
    match (rust, verdict) {
        (OfTheRust::Refused(row), Verdict::Refused(expected)) => row == expected,
        (OfTheRust::Answered(answer), Verdict::Answered(expected)) => {
            answer.class == expected.class as u32
                && answer.start as usize == expected.start
                && answer.end as usize == expected.end
                && answer.reference.as_bytes() == expected.reference
                && answer.alternative.as_bytes() == expected.alternative
        }
        _ => false,
    }
}

/// Of what sort a difference is: who parts from the model, and which rows were given.
#[derive(Clone, Copy, Debug, PartialEq, Eq)]
pub struct Difference {
    product_parts: bool,
    rust_parts: bool,
    row_of_product: u32,
    row_of_model: u32,
}

impl Answers<'_> {
    pub fn difference(&self) -> Option<Difference> {
        let found = Difference {
            product_parts: self.product != self.model,
            rust_parts: !self.rust_agrees,
            row_of_product: self.product.numbers.refusal,
            row_of_model: self.model.numbers.refusal,
        };
        (found.product_parts || found.rust_parts).then_some(found)
    }
}

/// The bytes of a buffer that were written.
fn written(buffer: &[u8]) -> String {
    let changed = buffer
        .iter()
        .zip(&BEFORE)
        .filter(|(byte, before)| byte != before);
    shown(&changed.map(|(&byte, _)| byte).collect::<Vec<u8>>())
}

fn shown(allele: &[u8]) -> String {
    format!("{:?} ({} bytes)", letters(allele), allele.len())
}

impl fmt::Display for Seen {
    fn fmt(&self, f: &mut fmt::Formatter<'_>) -> fmt::Result {
        let (reference, alternative) = (written(&self.reference), written(&self.alternative));
        write!(f, "{:?}, wrote {reference} and {alternative}", self.numbers)
    }
}

fn of_the_rust(verdict: &OfTheRust) -> String {
    match verdict {
        OfTheRust::Answered(answer) => {
            let reference = shown(answer.reference.as_bytes());
            let alternative = shown(answer.alternative.as_bytes());
            let (class, start, end) = (answer.class, answer.start, answer.end);
            format!("class {class}, range {start}, {end}, {reference} and {alternative}")
        }
        OfTheRust::Refused(row) => format!("refusal {row}"),
        OfTheRust::Failed(words) => words.clone(),
    }
}

impl fmt::Display for Answers<'_> {
    fn fmt(&self, f: &mut fmt::Formatter<'_>) -> fmt::Result {
        writeln!(f, "product: {}", self.product)?;
        writeln!(f, "model:   {}", self.model)?;
        match &self.rust {
            Ok(verdict) => write!(f, "Rust:    {}", of_the_rust(verdict)),
            Err(outside) => write!(f, "Rust:    not asked, {}", outside.reason()),
        }
    }
}
