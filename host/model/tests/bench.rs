//! Every row of the bench of docs/RULES.md, both sides of its limits, and the 50-base run.

use model::{verdict, Request, Verdict};

const TARGET: &[u8] = b"CAAATGGTACCA";
const OPEN: &[u32] = &[];
const ONE: &[u32] = &[0, 12];
const TWO: &[u32] = &[0, 4, 4, 12];

fn bytes(exons: &[u32]) -> Vec<u8> {
    exons.iter().flat_map(|n| n.to_le_bytes()).collect()
}

fn request<'a>(
    target: &'a [u8],
    edit: u32,
    range: (i32, i32),
    alternative: &'a str,
) -> Request<'a> {
    Request {
        target,
        kind: 0,
        exons: &[],
        cds_start: -1,
        cds_end: -1,
        start: range.0,
        end: range.1,
        edit,
        alternative: alternative.as_bytes(),
        direction: 0,
        window: 20,
        reference_room: 1_025,
        alternative_room: 1_025,
    }
}

/// An answer in one line: class, range, alleles, probes; a refusal as its number.
fn shown(request: &Request) -> String {
    match verdict(request) {
        Verdict::Refused(row) => format!("refusal {row}"),
        Verdict::Answered(a) => format!(
            "{} {},{} {}>{}; {}",
            a.class as u32,
            a.start,
            a.end,
            String::from_utf8(a.reference).unwrap(),
            String::from_utf8(a.alternative).unwrap(),
            a.probes
        ),
    }
}

/// Edit, range, alternative, direction, exons, CDS start, and the answer.
type Row = (
    u32,
    (i32, i32),
    &'static str,
    u32,
    &'static [u32],
    i64,
    &'static str,
);

#[test]
fn bench_rows() {
    let rows: [Row; 21] = [
        (2, (1, 2), "", 0, OPEN, -1, "3 4,4 A>; 3"),
        (2, (3, 4), "", 1, OPEN, -1, "3 2,2 A>; 3"),
        (2, (1, 2), "", 0, TWO, -1, "3 4,4 A>; 2"),
        (0, (0, 2), "A", 0, OPEN, -1, "2 4,4 A>; 4"),
        (0, (3, 5), "A", 1, OPEN, -1, "2 2,2 A>; 4"),
        (0, (3, 5), "C", 0, OPEN, -1, "1 4,5 >C; 1"),
        (1, (1, 2), "", 0, OPEN, -1, "2 4,4 A>; 3"),
        (3, (4, 6), "TCG", 0, OPEN, -1, "1 5,6 >C; 1"),
        (3, (4, 6), "CA", 0, OPEN, -1, "5 5,6 TG>; 0"),
        (4, (4, 5), "", 0, OPEN, -1, "4 5,5 T>A; 0"),
        (4, (5, 11), "", 0, OPEN, -1, "6 12,12 >; 1"),
        (4, (5, 11), "", 1, OPEN, -1, "6 1,1 C>C; 5"),
        (0, (10, 12), "AG", 0, ONE, -1, "4 12,12 A>AGA; 1"),
        (0, (10, 12), "AG", 0, OPEN, -1, "1 12,13 >GA; 1"),
        (0, (0, 2), "GC", 1, OPEN, -1, "4 1,1 C>CGC; 1"),
        (0, (10, 12), "GG", 1, OPEN, -1, "refusal 16"),
        (0, (10, 12), "GG", 1, ONE, -1, "1 11,12 >GG; 1"),
        (0, (4, 6), "AT", 0, TWO, -1, "1 5,6 >AT; 1"),
        (0, (4, 6), "AT", 0, ONE, -1, "2 4,5 AT>; 1"),
        (0, (3, 5), "C", 0, TWO, -1, "refusal 14"),
        (0, (3, 5), "C", 0, ONE, 4, "refusal 15"),
    ];
    for (edit, range, alternative, direction, table, cds_start, expected) in rows {
        let exons = bytes(table);
        let asked = Request {
            kind: u32::from(!table.is_empty()),
            exons: &exons,
            cds_start,
            direction,
            ..request(TARGET, edit, range, alternative)
        };
        assert_eq!(shown(&asked), expected, "{asked:?}");
    }
}

#[test]
fn readings() {
    let gaps = bytes(&[0, 1, 2, 3]);
    let rows = [
        (request(TARGET, 1, (1, 2), ""), 1, "2 2,2 A>; 2"),
        (request(b"C", 3, (0, 1), "GGC"), 1, "refusal 16"),
        (request(TARGET, 3, (4, 6), ""), 0, "3 5,6 TG>; 1"),
    ];
    for (asked, direction, expected) in rows {
        assert_eq!(shown(&Request { direction, ..asked }), expected);
    }
    let gapped = Request {
        kind: 1,
        exons: &gaps,
        ..request(b"ACA", 1, (0, 2), "")
    };
    assert_eq!(shown(&gapped), "refusal 13");
}

#[test]
fn limits() {
    let longest = vec![b'A'; 65_535];
    let too_long = vec![b'A'; 65_536];
    let word = "C".repeat(1_025);
    let deletion = request(&longest, 2, (0, 1), "");
    let row = |asked: Request| match verdict(&asked) {
        Verdict::Refused(row) => row,
        Verdict::Answered(_) => 0,
    };
    assert_eq!(shown(&deletion), "3 65535,65535 A>; 65534");
    assert_eq!(row(request(&too_long, 2, (0, 1), "")), 3);
    for (window, expected) in [(0, 2), (1, 0), (1_024, 0), (1_025, 2)] {
        assert_eq!(row(Request { window, ..deletion }), expected);
    }
    for (length, expected) in [(1_024, 0), (1_025, 7)] {
        assert_eq!(row(request(&longest, 0, (0, 2), &word[..length])), expected);
        assert_eq!(row(request(&longest, 2, (0, length as i32), "")), expected);
    }
    for (room, expected) in [(1_024, 9), (1_025, 0)] {
        let reference = Request {
            reference_room: room,
            ..deletion
        };
        let alternative = Request {
            alternative_room: room,
            ..deletion
        };
        assert_eq!((row(reference), row(alternative)), (expected, expected));
    }
}

#[test]
fn fifty_equal_bases() {
    let target = [b"C".as_slice(), &[b'A'; 50], b"C"].concat();
    for window in [1, 20, 64] {
        let rightward = request(&target, 2, (1, 2), "");
        let leftward = Request {
            direction: 1,
            ..request(&target, 2, (50, 51), "")
        };
        assert_eq!(
            shown(&Request {
                window,
                ..rightward
            }),
            "3 51,51 A>; 50"
        );
        assert_eq!(shown(&Request { window, ..leftward }), "3 2,2 A>; 50");
    }
}
