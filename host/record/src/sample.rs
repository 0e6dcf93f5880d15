//! The sample: a few requests of every sort, where the sort is what was answered (refusal or class),
//! kind, edit, direction and the tables' shape. Of requests that take many bytes it has one for each
//! size of target and each answer, and of the largest targets only answered ones.

use model::Verdict;
use oracle::{Oracle, Verdict as OfTheRust};
use requests::comparison::outside;
use requests::{damaged, random, Request, Visit};
use std::collections::HashMap;

/// A request with what is expected of it: refusal, class, start, end, probes, and both alleles.
pub struct Record {
    pub request: Request,
    pub numbers: [u32; 5],
    pub reference: Vec<u8>,
    pub alternative: Vec<u8>,
}

/// How many requests are looked at, and how many of one sort are kept.
const LOOKED_AT: u64 = 400_000;
const ANSWERED_OF_ONE_SORT: usize = 3;
const REFUSED_OF_ONE_SORT: usize = 1;
/// The most bytes that target, table and alternative of a short request have together.
const SHORT: usize = 40;
/// The longest target of each size. Above the first size few are kept, for the file's sake.
const SIZES: [usize; 5] = [300, 1_024, 2_100, 65_534, 65_535];
/// The first size of which only an answered request is kept.
const HUGE: usize = 3;

/// What tells one sort of request from another. Codes past the last are one sort.
#[derive(Clone, Copy, PartialEq, Eq, Hash)]
enum Sort {
    Short {
        refusal: u32,
        class: u32,
        codes: [u32; 3],
        tables: Option<Shape>,
    },
    Long {
        size: usize,
        refusal: u32,
        class: u32,
    },
}

/// The shape of a transcript's tables.
#[derive(Clone, Copy, PartialEq, Eq, Hash)]
struct Shape {
    several: bool,
    gaps: bool,
    cds: (bool, bool),
}

struct Sample<'a> {
    oracle: &'a mut Oracle,
    kept: HashMap<Sort, usize>,
    records: Vec<Record>,
    failed: Option<String>,
}

/// The sample that a seed gives, or a sentence where the Rust and the model part.
pub fn take(seed: u64, oracle: &mut Oracle) -> Result<Vec<Record>, String> {
    let mut sample = Sample {
        oracle,
        kept: HashMap::new(),
        records: Vec::new(),
        failed: None,
    };
    let visit: Visit = &mut |request| sample.look_at(request);
    random::each(seed, LOOKED_AT, visit);
    damaged::each(seed, LOOKED_AT, visit);
    match sample.failed {
        Some(sentence) => Err(sentence),
        None => Ok(sample.records),
    }
}

impl Sample<'_> {
    /// Keeps the request if there are few of its sort; false where the Rust and the model part.
    fn look_at(&mut self, request: &Request) -> bool {
        let request = Request {
            reference_room: model::ROOM,
            alternative_room: model::ROOM,
            ..request.clone()
        };
        let verdict = model::verdict(&request.lent());
        let sort = sort_of(&request, &verdict);
        let alike = self.kept.get(&sort).copied().unwrap_or(0);
        if alike >= most_of(&sort) {
            return true;
        }
        match self.expected(&request, &verdict) {
            Ok(record) => {
                self.kept.insert(sort, alike + 1);
                self.records.push(record);
            }
            Err(sentence) => self.failed = Some(sentence),
        }
        self.failed.is_none()
    }

    /// The record of a request: the Rust's answer where it can be asked, with the model's probes.
    fn expected(&mut self, request: &Request, verdict: &Verdict) -> Result<Record, String> {
        let ours = record_of(request, verdict);
        if outside(request, ours.numbers[0]).is_some() {
            return Ok(ours);
        }
        let probes = ours.numbers[4];
        let theirs = match self.oracle.answer(request) {
            OfTheRust::Refused(row) => refused(request, row),
            OfTheRust::Answered(answer) => Record {
                request: request.clone(),
                numbers: [
                    0,
                    answer.class,
                    answer.start as u32,
                    answer.end as u32,
                    probes,
                ],
                reference: answer.reference.into_bytes(),
                alternative: answer.alternative.into_bytes(),
            },
            OfTheRust::Failed(words) => return Err(format!("{words} on\n{request}")),
        };
        let same = theirs.numbers == ours.numbers
            && theirs.reference == ours.reference
            && theirs.alternative == ours.alternative;
        if same {
            Ok(theirs)
        } else {
            Err(format!("the Rust and the model part on\n{request}"))
        }
    }
}

fn record_of(request: &Request, verdict: &Verdict) -> Record {
    match verdict {
        Verdict::Refused(row) => refused(request, *row),
        Verdict::Answered(answer) => Record {
            request: request.clone(),
            numbers: [
                0,
                answer.class as u32,
                answer.start as u32,
                answer.end as u32,
                answer.probes,
            ],
            reference: answer.reference.clone(),
            alternative: answer.alternative.clone(),
        },
    }
}

fn refused(request: &Request, row: u32) -> Record {
    Record {
        request: request.clone(),
        numbers: [row, 0, 0, 0, 0],
        reference: Vec::new(),
        alternative: Vec::new(),
    }
}

/// How many requests of a sort are kept.
fn most_of(sort: &Sort) -> usize {
    match *sort {
        Sort::Short { refusal: 0, .. } => ANSWERED_OF_ONE_SORT,
        Sort::Short { .. } => REFUSED_OF_ONE_SORT,
        Sort::Long { size, refusal, .. } => {
            let kept = size < HUGE || refusal == 0;
            usize::from(kept)
        }
    }
}

fn sort_of(request: &Request, verdict: &Verdict) -> Sort {
    let (refusal, class) = match verdict {
        Verdict::Refused(row) => (*row, 0),
        Verdict::Answered(answer) => (0, answer.class as u32),
    };
    let size = SIZES.partition_point(|&longest| longest < request.target.len());
    let bytes = request.target.len() + request.exons.len() + request.alternative.len();
    if bytes > SHORT {
        return Sort::Long {
            size,
            refusal,
            class: if size < HUGE { class } else { 0 },
        };
    }
    let reads_tables = request.kind == 1 && !(1..10).contains(&refusal);
    Sort::Short {
        refusal,
        class,
        codes: [
            request.kind.min(3),
            request.edit.min(5),
            request.direction.min(2),
        ],
        tables: reads_tables.then(|| shape_of(request)),
    }
}

fn shape_of(request: &Request) -> Shape {
    let pairs = request.exon_pairs();
    let gap_after = |two: &[(u32, u32)]| two[0].1 != two[1].0;
    let late = pairs.first().is_some_and(|first| first.0 != 0);
    Shape {
        several: pairs.len() > 1,
        gaps: late || pairs.windows(2).any(gap_after),
        cds: (request.cds_start >= 0, request.cds_end >= 0),
    }
}
