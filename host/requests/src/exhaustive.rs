//! Every request over small targets: to length 4 over A, C, G, T and to length 7 over two letters,
//! with all kinds, tables, CDS bounds, ranges, edits, alternatives to length 3, windows 1, 2 and 20,
//! and both directions. A level (letters, length, kind) above the count is sampled by target and
//! tables; all requests over a target and tables that are drawn are put.

use crate::tables::{every_cds, every_table, Exons};
use crate::{Request, Rng, Visit};

/// The letters of a target, the lengths over them, and words that alternatives hold besides.
struct Space {
    letters: &'static [u8],
    lengths: std::ops::RangeInclusive<usize>,
    foreign: &'static [&'static [u8]],
}

/// A and T pair with each other, so that inversions of two-letter targets can leave them unchanged.
const SPACES: [Space; 2] = [
    Space {
        letters: b"ACGT",
        lengths: 1..=4,
        foreign: &[],
    },
    Space {
        letters: b"AT",
        lengths: 5..=7,
        foreign: &[b"C"],
    },
];

const WINDOWS: [u32; 3] = [1, 2, 20];
const LONGEST_ALTERNATIVE: usize = 3;

/// The tables that go with a request.
#[derive(Clone)]
struct Tables {
    exons: Vec<u8>,
    cds: (i64, i64),
}

/// Puts every request; of each level at most about `count`, drawn by `seed`. Says on `told` what was
/// taken of each level.
pub fn each(seed: u64, count: u64, told: &mut dyn FnMut(&str), visit: Visit) {
    let mut rng = Rng::new(seed);
    for space in &SPACES {
        for length in space.lengths.clone() {
            for kind in 0..3 {
                let level = Level::new(space, length, kind);
                told(&level.share(count));
                if !level.each(&mut rng, count, visit) {
                    return;
                }
            }
        }
    }
}

/// All requests over targets of one length over some letters, of one kind.
struct Level<'a> {
    space: &'a Space,
    length: usize,
    kind: u32,
    tables: Vec<Tables>,
    alternatives: Vec<Vec<u8>>,
}

impl<'a> Level<'a> {
    fn new(space: &'a Space, length: usize, kind: u32) -> Self {
        let words = (0..=LONGEST_ALTERNATIVE).flat_map(|n| words(space.letters, n));
        let foreign = space.foreign.iter().map(|word| word.to_vec());
        Level {
            space,
            length,
            kind,
            tables: if kind == 1 {
                transcript_tables(length)
            } else {
                ignored_tables()
            },
            alternatives: words.chain(foreign).collect(),
        }
    }

    /// How many requests this level has.
    fn size(&self) -> u64 {
        let mut over_one = 0;
        let any = vec![self.space.letters[0]; self.length];
        self.over(&any, &self.tables[0], &mut |_| {
            over_one += 1;
            true
        });
        let targets = self.space.letters.len().pow(self.length as u32) as u64;
        over_one * targets * self.tables.len() as u64
    }

    fn share(&self, count: u64) -> String {
        let letters = String::from_utf8_lossy(self.space.letters);
        let kind = ["open", "transcript", "crossing"][self.kind as usize];
        let size = self.size();
        let share = if size <= count {
            format!("all {size}")
        } else {
            format!("about {count} of {size}")
        };
        format!(
            "{letters}, length {}, {kind}: {share} requests",
            self.length
        )
    }

    fn each(&self, rng: &mut Rng, count: u64, visit: Visit) -> bool {
        let size = self.size();
        for target in words(self.space.letters, self.length) {
            for tables in &self.tables {
                let drawn = size <= count || rng.below(size as usize) < count as usize;
                if drawn && !self.over(&target, tables, visit) {
                    return false;
                }
            }
        }
        true
    }

    /// All requests over one target with one choice of tables.
    fn over(&self, target: &[u8], tables: &Tables, visit: Visit) -> bool {
        let mut request = Request {
            kind: self.kind,
            exons: tables.exons.clone(),
            cds_start: tables.cds.0,
            cds_end: tables.cds.1,
            ..Request::over(target.to_vec())
        };
        for direction in 0..2 {
            for window in WINDOWS {
                request.direction = direction;
                request.window = window;
                if !self.every_change(&mut request, visit) {
                    return false;
                }
            }
        }
        true
    }

    fn every_change(&self, request: &mut Request, visit: Visit) -> bool {
        let length = self.length as i32;
        for start in -1..=length {
            for end in -1..=length + 2 {
                for edit in 0..5 {
                    request.start = start;
                    request.end = end;
                    request.edit = edit;
                    if !self.every_alternative(request, visit) {
                        return false;
                    }
                }
            }
        }
        true
    }

    /// Every alternative where it is read and the range may be right, else one.
    fn every_alternative(&self, request: &mut Request, visit: Visit) -> bool {
        let in_bounds =
            0 <= request.start && request.start < request.end && request.end <= self.length as i32;
        let all = match request.edit {
            0 => in_bounds && request.end == request.start + 2,
            3 => in_bounds,
            _ => false,
        };
        let taken = if all { self.alternatives.len() } else { 2 };
        let skipped = usize::from(!all);
        self.alternatives[skipped..taken].iter().all(|alternative| {
            request.alternative.clone_from(alternative);
            visit(request)
        })
    }
}

/// Every word of one length.
fn words(letters: &[u8], length: usize) -> Vec<Vec<u8>> {
    let mut words = vec![Vec::new()];
    for _ in 0..length {
        words = words
            .iter()
            .flat_map(|word| {
                letters
                    .iter()
                    .map(|&letter| [&word[..], &[letter]].concat())
            })
            .collect();
    }
    words
}

fn transcript_tables(length: usize) -> Vec<Tables> {
    let with_bounds = |exons: Exons| {
        let numbers = exons.into_iter().flat_map(|(start, end)| [start, end]);
        let exons: Vec<u8> = numbers.flat_map(u32::to_le_bytes).collect();
        every_cds(length as i64).into_iter().map(move |cds| Tables {
            exons: exons.clone(),
            cds,
        })
    };
    let tables = every_table(length as u32).into_iter();
    tables.flat_map(with_bounds).collect()
}

/// Open and crossing targets ignore the tables: none, and broken ones.
fn ignored_tables() -> Vec<Tables> {
    vec![
        Tables {
            exons: Vec::new(),
            cds: (-1, -1),
        },
        Tables {
            exons: vec![7, 7, 7],
            cds: (99, -9),
        },
    ]
}
