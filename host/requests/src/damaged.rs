//! Good requests with one fault or two: each row of the table of refusals by itself and before or
//! after another, and faults that must not matter.

use crate::{random, Request, Rng, Visit};
use model::{ALLELE_LIMIT, EXON_LIMIT, ROOM, TARGET_LIMIT, WINDOW_LIMIT};

/// A fault: it changes a request so that a row is given, unless an earlier one is.
type Fault = fn(&mut Rng, &mut Request);

/// The faults of each row in the order of the rows; the last must not matter.
const FAULTS: [Fault; 33] = [
    |rng, r| r.kind = past(rng, 3),
    |rng, r| r.edit = past(rng, 5),
    |rng, r| r.direction = past(rng, 2),
    |rng, r| r.window = rng.one_of(&[0, WINDOW_LIMIT + 1, u32::MAX]),
    |_, r| r.target.clear(),
    |rng, r| r.target = rng.word(b"ACGT", TARGET_LIMIT + 1),
    bad_base,
    |rng, r| r.start = rng.one_of(&[-1, -2, i32::MIN]),
    |rng, r| r.end = r.start.saturating_sub(rng.one_of(&[0, 0, 1, 2, i32::MAX])),
    |rng, r| r.end = rng.one_of(&[r.target.len() as i32 + 1, i32::MAX]),
    bad_insertion_range,
    |_, r| (r.edit, r.alternative) = (0, Vec::new()),
    long_range,
    long_alternative,
    bad_allele,
    |rng, r| r.reference_room = rng.one_of(&[0, 1, ROOM - 1]),
    |rng, r| r.alternative_room = rng.one_of(&[0, 1, ROOM - 1]),
    |rng, r| r.exons.truncate(cut_pair(rng, r)),
    |_, r| r.exons.clear(),
    too_many_exons,
    |rng, r| change_pair(rng, r, |(start, _)| (start, start)),
    |rng, r| change_pair(rng, r, |(start, end)| (start, end + 1)),
    |rng, r| change_pair(rng, r, |(start, end)| (start.wrapping_sub(1), end)),
    |rng, r| change_pair(rng, r, |(start, end)| (start, end - 1)),
    |rng, r| r.cds_start = bad_bound(rng, r),
    |rng, r| r.cds_end = bad_bound(rng, r),
    |_, r| (r.cds_start, r.cds_end) = (1, 0),
    exon_gap_at_start,
    exon_gap_at_end,
    two_exons,
    across_a_bound,
    leftward_past_the_target,
    unread_alternative,
];

/// Puts requests with each fault by itself and each two faults, in turn, over random requests.
pub fn each(seed: u64, count: u64, visit: Visit) {
    let mut rng = Rng::new(seed);
    let faults = FAULTS.len();
    for turn in 0..count as usize {
        let first = turn % faults;
        let second = turn / faults % (faults + 1);
        let longest = if rng.once_in(4) { 2_100 } else { 30 };
        let mut request = random::one(&mut rng, longest);
        request.kind = if rng.once_in(3) { request.kind } else { 1 };
        FAULTS[first](&mut rng, &mut request);
        if let Some(fault) = FAULTS.get(second) {
            fault(&mut rng, &mut request);
        }
        if !visit(&request) {
            return;
        }
    }
}

/// A code past the last.
fn past(rng: &mut Rng, codes: u32) -> u32 {
    rng.one_of(&[codes, codes + 1, 256, u32::MAX])
}

/// A byte that is no base.
fn no_base(rng: &mut Rng) -> u8 {
    rng.one_of(b"acgtNnUBDEFS@\0\x7f\x80\xff -")
}

fn spoil(rng: &mut Rng, bytes: &mut [u8]) {
    let last = bytes.len() - 1;
    let spot = rng.below(bytes.len());
    bytes[rng.one_of(&[0, last, spot])] = no_base(rng);
}

fn bad_base(rng: &mut Rng, request: &mut Request) {
    if !request.target.is_empty() {
        spoil(rng, &mut request.target);
    }
}

fn bad_allele(rng: &mut Rng, request: &mut Request) {
    request.edit = rng.one_of(&[0, 3]);
    if request.edit == 0 {
        request.end = request.start.saturating_add(2);
    }
    if request.alternative.is_empty() {
        request.alternative.push(b'A');
    }
    spoil(rng, &mut request.alternative);
}

fn bad_insertion_range(rng: &mut Rng, request: &mut Request) {
    request.edit = 0;
    request.end = request.start.saturating_add(rng.one_of(&[1, 3, 4]));
}

fn long_range(rng: &mut Rng, request: &mut Request) {
    let width = ALLELE_LIMIT + rng.from_to(0, 2);
    if request.target.len() < width {
        let length = width + rng.below(3);
        request.target = rng.word(b"ACGT", length);
        request.set_exon_pairs(&[(0, length as u32)]);
    }
    request.edit = rng.from_to(1, 4) as u32;
    request.start = 0;
    request.end = width as i32;
}

fn long_alternative(rng: &mut Rng, request: &mut Request) {
    request.edit = rng.one_of(&[0, 3]);
    if request.edit == 0 {
        request.end = request.start.saturating_add(2);
    }
    let length = ALLELE_LIMIT + rng.from_to(0, 2);
    request.alternative = rng.word(b"ACGT", length);
}

/// How many bytes of the table leave its last pair cut.
fn cut_pair(rng: &mut Rng, request: &Request) -> usize {
    request.exons.len().saturating_sub(rng.from_to(1, 7))
}

/// 512 exons or more, each of one base, before what is left of the target.
fn too_many_exons(rng: &mut Rng, request: &mut Request) {
    let exons = (EXON_LIMIT + rng.below(3)) as u32;
    let length = request.target.len() as u32;
    if length > exons {
        let ones = (0..exons - 1).map(|start| (start, start + 1));
        let pairs: Vec<(u32, u32)> = ones.chain([(exons - 1, length)]).collect();
        request.set_exon_pairs(&pairs);
    }
}

fn change_pair(rng: &mut Rng, request: &mut Request, change: fn((u32, u32)) -> (u32, u32)) {
    let mut pairs = request.exon_pairs();
    if pairs.is_empty() {
        return;
    }
    let spot = rng.below(pairs.len());
    let (start, end) = pairs[spot];
    pairs[spot] = change((start, end.clamp(1, u32::MAX - 1)));
    request.set_exon_pairs(&pairs);
}

fn bad_bound(rng: &mut Rng, request: &Request) -> i64 {
    let length = request.target.len() as i64;
    let low_word = (1 << 32) | 1;
    rng.one_of(&[-2, i64::MIN, length + 1, i64::MAX, low_word])
}

/// A target of ten bases with exons 1..3, 5..7 and 7..10.
fn gapped(rng: &mut Rng, request: &mut Request) {
    request.kind = 1;
    request.target = rng.word(b"ACGT", 10);
    request.set_exon_pairs(&[(1, 3), (5, 7), (7, 10)]);
    (request.cds_start, request.cds_end) = (-1, -1);
    request.edit = rng.from_to(1, 4) as u32;
}

fn exon_gap_at_start(rng: &mut Rng, request: &mut Request) {
    gapped(rng, request);
    (request.start, request.end) = rng.one_of(&[(0, 1), (0, 2), (3, 6), (3, 5), (4, 5)]);
}

fn exon_gap_at_end(rng: &mut Rng, request: &mut Request) {
    gapped(rng, request);
    (request.start, request.end) = rng.one_of(&[(1, 4), (2, 4), (2, 5), (1, 5)]);
}

fn two_exons(rng: &mut Rng, request: &mut Request) {
    gapped(rng, request);
    (request.start, request.end) = rng.one_of(&[(1, 6), (2, 6), (6, 8), (5, 10), (2, 8)]);
}

fn across_a_bound(rng: &mut Rng, request: &mut Request) {
    gapped(rng, request);
    (request.start, request.end) = (7, 10);
    let bound = rng.one_of(&[8, 9]);
    let (before, after) = (rng.one_of(&[-1, 0, 7]), rng.one_of(&[-1, 10]));
    (request.cds_start, request.cds_end) = rng.one_of(&[(bound, after), (before, bound)]);
}

fn leftward_past_the_target(rng: &mut Rng, request: &mut Request) {
    let length = request.target.len() as i32;
    request.kind = rng.one_of(&[0, 2]);
    request.direction = 1;
    request.edit = 0;
    (request.start, request.end) = (length - 2, length);
    let added = rng.from_to(1, 4);
    request.alternative = rng.word(b"ACGT", added);
}

/// Only insertion and replacement read the alternative.
fn unread_alternative(rng: &mut Rng, request: &mut Request) {
    request.edit = rng.one_of(&[1, 2, 4]);
    request.alternative = rng.one_of(&[&b"NN\xff"[..], b"", &[b'x'; 1_100]]).to_vec();
}
