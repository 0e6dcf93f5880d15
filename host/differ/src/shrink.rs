//! From a request that shows a difference to the smallest one that still does: every way of making
//! it smaller is tried, large steps first, until none helps.

use requests::Request;

/// The most requests that are tried.
const TRIES: usize = 20_000;

/// A way of making a request smaller: all the requests that one step leads to, large steps first.
type Way = fn(&Request) -> Vec<Request>;

const WAYS: [Way; 5] = [
    shorter_targets,
    shorter_alternatives,
    fewer_exons,
    plainer_numbers,
    plainer_letters,
];

/// A smaller request on which `differs` still holds; the request itself where none is found.
pub fn smallest(found: &Request, differs: &mut dyn FnMut(&Request) -> bool) -> Request {
    let mut best = found.clone();
    let mut tries = 0;
    let mut helps = |smaller: &Request, best: &Request| {
        weight(smaller) < weight(best) && {
            tries += 1;
            tries <= TRIES && differs(smaller)
        }
    };
    loop {
        let before = weight(&best);
        for way in WAYS {
            while let Some(smaller) = way(&best).into_iter().find(|r| helps(r, &best)) {
                best = smaller;
            }
        }
        if weight(&best) == before {
            return best;
        }
    }
}

/// What counts as smaller: fewer bytes first, then plainer numbers and letters.
fn weight(request: &Request) -> (usize, u128, usize) {
    let bytes = request.target.len() + request.alternative.len() + request.exons.len();
    let far = |number: i64, plain: i64| u128::from(number.abs_diff(plain));
    let numbers = far(request.cds_start, -1)
        + far(request.cds_end, -1)
        + far(request.start.into(), 0)
        + far(request.end.into(), 1)
        + u128::from(request.kind)
        + u128::from(request.edit)
        + u128::from(request.direction)
        + u128::from(request.window.abs_diff(20))
        + request.reference_room.abs_diff(model::ROOM) as u128
        + request.alternative_room.abs_diff(model::ROOM) as u128;
    let letters = request.target.iter().chain(&request.alternative);
    let odd = letters.filter(|&&letter| letter != b'A').count();
    (bytes, numbers, odd)
}

/// Parts of a sequence: all of it, halves, quarters and so on down to single bytes. Long sequences
/// have about sixteen places for each size.
fn parts(length: usize) -> Vec<(usize, usize)> {
    let sizes = std::iter::successors(Some(length), |&size| (size > 1).then_some(size / 2));
    let at_places = |size: usize| {
        let stride = (length / 16).max(1);
        let places = (0..=length - size).step_by(stride);
        places
            .chain([length - size])
            .map(move |from| (from, from + size))
    };
    sizes.filter(|&size| size > 0).flat_map(at_places).collect()
}

fn without(bytes: &[u8], from: usize, to: usize) -> Vec<u8> {
    [&bytes[..from], &bytes[to..]].concat()
}

fn shorter_targets(request: &Request) -> Vec<Request> {
    let length = request.target.len();
    let parts = parts(length).into_iter();
    parts
        .map(|(from, to)| without_bases(request, from, to))
        .collect()
}

/// The request with bases taken out of its target, every number moved along.
fn without_bases(request: &Request, from: usize, to: usize) -> Request {
    let (low, high) = (from as i64, to as i64);
    let along = |number: i64| match number {
        before if before <= low => before,
        inside if inside < high => low,
        after => after - (high - low),
    };
    let pairs = request.exon_pairs().into_iter();
    let moved = pairs.map(|(s, e)| (along(s.into()) as u32, along(e.into()) as u32));
    let kept: Vec<(u32, u32)> = moved.filter(|(start, end)| start < end).collect();
    let mut smaller = Request {
        target: without(&request.target, from, to),
        cds_start: along(request.cds_start),
        cds_end: along(request.cds_end),
        start: along(request.start.into()) as i32,
        end: along(request.end.into()) as i32,
        ..request.clone()
    };
    if request.exons.len().is_multiple_of(8) {
        smaller.set_exon_pairs(&kept);
    }
    smaller
}

fn shorter_alternatives(request: &Request) -> Vec<Request> {
    let parts = parts(request.alternative.len()).into_iter();
    let shorter = parts.map(|(from, to)| Request {
        alternative: without(&request.alternative, from, to),
        ..request.clone()
    });
    shorter.collect()
}

fn fewer_exons(request: &Request) -> Vec<Request> {
    let pairs = request.exons.len() / 8;
    let fewer = parts(pairs).into_iter().map(|(from, to)| Request {
        exons: without(&request.exons, from * 8, to * 8),
        ..request.clone()
    });
    let whole = Request {
        exons: [0, request.target.len() as u32]
            .map(u32::to_le_bytes)
            .concat(),
        ..request.clone()
    };
    fewer.chain([whole]).collect()
}

fn plainer_numbers(request: &Request) -> Vec<Request> {
    let mut plainer = Vec::new();
    let mut push = |change: &dyn Fn(&mut Request)| {
        let mut smaller = request.clone();
        change(&mut smaller);
        plainer.push(smaller);
    };
    push(&|r| r.cds_start = -1);
    push(&|r| r.cds_end = -1);
    push(&|r| r.kind = 0);
    push(&|r| r.kind = 1);
    push(&|r| r.edit = r.edit.saturating_sub(1));
    push(&|r| r.direction = 0);
    push(&|r| r.window = 20);
    push(&|r| r.window = 1);
    push(&|r| r.window = 2);
    push(&|r| (r.reference_room, r.alternative_room) = (model::ROOM, model::ROOM));
    for step in (0..17).rev().map(|power| 1 << power) {
        push(&|r| r.cds_start -= i64::from(step));
        push(&|r| r.cds_end -= i64::from(step));
        push(&|r| r.end = r.end.saturating_sub(step));
        push(&|r| {
            r.start = r.start.saturating_sub(step);
            r.end = r.end.saturating_sub(step);
        });
    }
    plainer
}

/// The request with parts of its target or of its alternative all A.
fn plainer_letters(request: &Request) -> Vec<Request> {
    let in_target = parts(request.target.len()).into_iter().map(|(from, to)| {
        let mut plainer = request.clone();
        plainer.target[from..to].fill(b'A');
        plainer
    });
    let in_alternative = parts(request.alternative.len()).into_iter();
    let in_alternative = in_alternative.map(|(from, to)| {
        let mut plainer = request.clone();
        plainer.alternative[from..to].fill(b'A');
        plainer
    });
    in_target.chain(in_alternative).collect()
}

#[cfg(test)]
mod tests {
    use super::*;

    /// A difference that shows wherever a C is deleted shrinks to that one base.
    #[test]
    fn a_difference_shrinks_to_its_cause() {
        let found = Request {
            start: 40,
            end: 43,
            window: 7,
            ..Request::over(b"ACGT".repeat(30))
        };
        let mut deletes_c = |request: &Request| {
            let range = request.start.max(0) as usize..request.end.max(0) as usize;
            request
                .target
                .get(range)
                .is_some_and(|bases| bases.contains(&b'C'))
        };
        let smallest = smallest(&found, &mut deletes_c);
        assert_eq!(
            (smallest.target.as_slice(), smallest.start, smallest.end),
            (&b"C"[..], 0, 1)
        );
        assert_eq!(smallest.window, 20);
    }
}
