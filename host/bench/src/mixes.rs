//! The mixes of requests that are timed. The requests of a mix share their target and tables.

use requests::{Request, Rng};

pub struct Mix {
    pub name: &'static str,
    pub requests: Vec<Request>,
}

/// How many requests a mix has for each edit.
const FOR_EACH_EDIT: usize = 20;

pub fn all() -> Vec<Mix> {
    let mut rng = Rng::new(1);
    vec![
        every_edit(&mut rng, "200 bases, every edit, open", 200, 0, 1),
        every_edit(&mut rng, "200 bases, every edit, 5 exons", 200, 1, 5),
        every_edit(&mut rng, "2,000 bases, every edit, open", 2_000, 0, 1),
        every_edit(&mut rng, "65,535 bases, every edit, open", 65_535, 0, 1),
        every_edit(&mut rng, "10,000 bases, 500 exons", 10_000, 1, 500),
        run("run of 20,000, rightward", 1, 0, 20),
        run("run of 20,000, leftward", 20_000, 1, 20),
        run("run of 20,000, window 1,024", 1, 0, 1_024),
        palindrome(&mut rng),
        refusals(&mut rng),
    ]
}

/// A request over random bases, with as many exons of equal length.
fn over(rng: &mut Rng, length: usize, kind: u32, exons: usize) -> Request {
    let mut request = Request {
        kind,
        ..Request::over(rng.word(b"ACGT", length))
    };
    let border = |n: usize| (n * length / exons) as u32;
    let pairs: Vec<(u32, u32)> = (0..exons).map(|n| (border(n), border(n + 1))).collect();
    request.set_exon_pairs(&pairs);
    request
}

/// Insertions, duplications, deletions, replacements and inversions of a few bases, both directions.
/// Inversions are of odd length: none is its own reverse complement, which would move to the edge.
fn every_edit(rng: &mut Rng, name: &'static str, length: usize, kind: u32, exons: usize) -> Mix {
    let base = over(rng, length, kind, exons);
    let pairs = base.exon_pairs();
    let requests = (0..5 * FOR_EACH_EDIT).map(|turn| {
        let (left, right) = rng.one_of(&pairs);
        let edit = (turn % 5) as u32;
        let width = match edit {
            0 => 2,
            4 => rng.one_of(&[3, 5]),
            _ => rng.from_to(1, 6),
        };
        let start = rng.from_to(left as usize, right as usize - width);
        let added = rng.from_to(2, 6);
        Request {
            edit,
            start: start as i32,
            end: (start + width) as i32,
            alternative: rng.word(b"ACGT", added),
            direction: (turn / 5 % 2) as u32,
            ..base.clone()
        }
    });
    let requests = requests.collect();
    Mix { name, requests }
}

/// One base of a run of 20,000 equal bases is deleted.
fn run(name: &'static str, start: i32, direction: u32, window: u32) -> Mix {
    let target = [b"C".as_slice(), &[b'A'; 20_000], b"C"].concat();
    let request = Request {
        start,
        end: start + 1,
        direction,
        window,
        ..Request::over(target)
    };
    Mix {
        name,
        requests: vec![request],
    }
}

/// An inversion that is its own reverse complement, 30,000 bases from the edge.
fn palindrome(rng: &mut Rng) -> Mix {
    let mut target = rng.word(b"ACGT", 65_535);
    target[35_535 - 2..35_535].copy_from_slice(b"AT");
    let request = Request {
        start: 35_533,
        end: 35_535,
        edit: 4,
        ..Request::over(target)
    };
    Mix {
        name: "inversion of AT, 30,000 to the edge",
        requests: vec![request],
    }
}

/// Requests that both refuse: out of the target, across exons, across a CDS bound.
fn refusals(rng: &mut Rng) -> Mix {
    let base = Request {
        cds_start: 30,
        ..over(rng, 200, 1, 5)
    };
    let ranges = [(-1, 3), (190, 201), (35, 45), (29, 31), (75, 81), (28, 33)];
    let requests = ranges.iter().map(|&(start, end)| Request {
        start,
        end,
        ..base.clone()
    });
    Mix {
        name: "200 bases, refusals 5, 14, 15",
        requests: requests.collect(),
    }
}
