//! Random requests inside the limits and near them: short and long targets, repeats of
//! period 1 to 6, tables with gaps and up to 512 exons, alleles and windows to 1,024.

use crate::tables::{random_cds, random_table};
use crate::{Request, Rng, Visit};
use model::{ALLELE_LIMIT, EXON_LIMIT, ROOM, TARGET_LIMIT, WINDOW_LIMIT};

const BASES: &[u8] = b"ACGT";
/// How many requests are put over one target.
const OVER_ONE_TARGET: u64 = 40;

pub fn each(seed: u64, count: u64, visit: Visit) {
    let mut rng = Rng::new(seed);
    let mut put = 0;
    while put < count {
        let length = target_length(&mut rng);
        let mut request = over_target(&mut rng, length);
        for _ in 0..OVER_ONE_TARGET.min(count - put) {
            change(&mut rng, &mut request);
            put += 1;
            if !visit(&request) {
                return;
            }
        }
    }
}

/// A request over a target of at most `longest` bases.
pub fn one(rng: &mut Rng, longest: usize) -> Request {
    let length = rng.from_to(1, longest);
    let mut request = over_target(rng, length);
    change(rng, &mut request);
    request
}

fn target_length(rng: &mut Rng) -> usize {
    match rng.below(100) {
        0..=39 => rng.from_to(1, 12),
        40..=79 => rng.from_to(13, 300),
        80..=89 => rng.one_of(&[1_024, 2_048]) - 2 + rng.below(5),
        90..=96 => rng.from_to(301, 5_000),
        97..=98 => rng.from_to(5_001, TARGET_LIMIT),
        _ => TARGET_LIMIT - rng.below(3),
    }
}

fn target(rng: &mut Rng, length: usize) -> Vec<u8> {
    let period = rng.from_to(1, 6);
    let unit = rng.word(BASES, period);
    let repeat: Vec<u8> = unit.iter().copied().cycle().take(length).collect();
    match rng.below(5) {
        0 => rng.word(BASES, length),
        1 => {
            let two = rng.one_of(&[b"AC", b"AT", b"CG"]);
            rng.word(two, length)
        }
        2 => repeat,
        3 => {
            let spots = repeat.into_iter();
            spots
                .map(|b| {
                    if rng.once_in(40) {
                        rng.one_of(BASES)
                    } else {
                        b
                    }
                })
                .collect()
        }
        _ => {
            let mut bases = rng.word(BASES, length);
            let left = rng.below(length);
            let right = rng.from_to(left, length);
            bases[left..right].copy_from_slice(&repeat[left..right]);
            bases
        }
    }
}

/// A target with its tables, to be asked for changes.
fn over_target(rng: &mut Rng, length: usize) -> Request {
    let most = match rng.below(10) {
        0..=3 => 1,
        4..=7 => rng.from_to(2, 6),
        8 => 500,
        _ => EXON_LIMIT,
    };
    let exons = random_table(rng, length, most);
    let (cds_start, cds_end) = random_cds(rng, length);
    let mut request = Request {
        cds_start,
        cds_end,
        ..Request::over(target(rng, length))
    };
    request.set_exon_pairs(&exons);
    request
}

/// Another change over the request's target, direction, window, kind and CDS bounds drawn anew.
fn change(rng: &mut Rng, request: &mut Request) {
    let length = request.target.len();
    request.kind = rng.one_of(&[0, 1, 1, 1, 2]);
    request.direction = rng.below(2) as u32;
    request.window = match rng.below(3) {
        0 => rng.from_to(1, WINDOW_LIMIT as usize) as u32,
        _ => rng.one_of(&[1, 2, 3, 5, 20, 64, WINDOW_LIMIT - 1, WINDOW_LIMIT]),
    };
    request.reference_room = ROOM + rng.one_of(&[0, 0, 0, 1, 700]);
    request.alternative_room = ROOM + rng.one_of(&[0, 0, 0, 1, 700]);
    if rng.once_in(8) {
        (request.cds_start, request.cds_end) = random_cds(rng, length);
    }
    request.edit = if length < 2 {
        rng.from_to(1, 4) as u32
    } else {
        rng.below(5) as u32
    };
    let (start, end) = range(rng, request);
    request.start = start as i32;
    request.end = end as i32;
    request.alternative = alternative(rng, request, start, end);
}

/// A range for the request's edit: four in five inside an exon.
fn range(rng: &mut Rng, request: &Request) -> (usize, usize) {
    let length = request.target.len();
    let pairs = request.exon_pairs();
    let (left, right) = if rng.once_in(5) {
        (0, length)
    } else {
        let (start, end) = rng.one_of(&pairs);
        (start as usize, end as usize)
    };
    if request.edit == 0 {
        let start = near_an_edge(rng, left, right).min(length - 2);
        return (start, start + 2);
    }
    let start = near_an_edge(rng, left, right);
    let widest = (right - start).min(ALLELE_LIMIT);
    let width = match rng.below(10) {
        0..=3 => 1,
        4..=7 => rng.from_to(2, 6),
        8 => rng.from_to(1, widest),
        _ => widest,
    };
    (start, start + width.min(widest))
}

/// A base from `left` up to `right`, half of the time at most three from an edge.
fn near_an_edge(rng: &mut Rng, left: usize, right: usize) -> usize {
    let last = right - 1;
    match rng.below(4) {
        0 => (left + rng.below(4)).min(last),
        1 => last - rng.below(4).min(last - left),
        _ => rng.from_to(left, last),
    }
}

/// An alternative that has to do with the bases at the range, or not.
fn alternative(rng: &mut Rng, request: &Request, start: usize, end: usize) -> Vec<u8> {
    let target = &request.target;
    let gap = if request.edit == 0 { start + 1 } else { end };
    let copied = if rng.once_in(6) {
        rng.from_to(1, ALLELE_LIMIT)
    } else {
        rng.from_to(1, 6)
    };
    let mut bases = match rng.below(8) {
        0 => rng.word(BASES, copied),
        1 => target[gap.saturating_sub(copied)..gap].to_vec(),
        2 => target[gap..(gap + copied).min(target.len())].to_vec(),
        3 => target[start..end].to_vec(),
        4 => target[start..end].repeat(2),
        5 => opposite(&target[start..end]),
        6 => [
            &target[start..end],
            &rng.word(BASES, 1)[..],
            &target[start..end],
        ]
        .concat(),
        _ => with_a_spot(rng, &target[start..end]),
    };
    bases.truncate(ALLELE_LIMIT);
    if request.edit == 0 && bases.is_empty() {
        bases = rng.word(BASES, 1);
    }
    bases
}

fn opposite(bases: &[u8]) -> Vec<u8> {
    let pairs = |base: &u8| match base {
        b'A' => b'T',
        b'C' => b'G',
        b'G' => b'C',
        _ => b'A',
    };
    bases.iter().rev().map(pairs).collect()
}

/// The bases with one of them changed, one taken out, or one put in.
fn with_a_spot(rng: &mut Rng, bases: &[u8]) -> Vec<u8> {
    let mut changed = bases.to_vec();
    let spot = rng.below(bases.len());
    match rng.below(3) {
        0 => changed[spot] = rng.one_of(BASES),
        1 => drop(changed.remove(spot)),
        _ => changed.insert(spot, rng.one_of(BASES)),
    }
    changed
}
