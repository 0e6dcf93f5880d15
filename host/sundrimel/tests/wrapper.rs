//! The wrapper against the bench of docs/RULES.md: every kind, edit, direction, class and its refusals.

use sundrimel::{exon_bytes, Class, Direction, Edit, Kind, Normalizer, Refusal, Request, Tables};

/// The bench's target with the wrapper's types.
fn asked<'a>(kind: Kind<'a>, edit: Edit<'a>, start: i32, end: i32) -> Request<'a> {
    Request {
        target: b"CAAATGGTACCA",
        kind,
        start,
        end,
        edit,
        direction: Direction::Rightward,
        window: 20,
    }
}

fn leftward(request: Request<'_>) -> Request<'_> {
    Request {
        direction: Direction::Leftward,
        ..request
    }
}

/// Class, range, alleles and probes, or the refusal.
type Reply = Result<(Class, (u32, u32), &'static str, &'static str, u32), Refusal>;

fn gives(request: Request<'_>, expected: Reply) {
    let mut normalizer = Normalizer::new();
    let text = |allele: &[u8]| String::from_utf8(allele.to_vec()).unwrap();
    let reply = normalizer.normalize(&request).map(|answer| {
        let alleles = (text(answer.reference), text(answer.alternative));
        (
            answer.class,
            (answer.start, answer.end),
            alleles,
            answer.probes,
        )
    });
    let expected = expected.map(|(class, range, reference, alternative, probes)| {
        let alleles = (reference.to_string(), alternative.to_string());
        (class, range, alleles, probes)
    });
    assert_eq!(reply, expected, "{request:?}");
}

#[test]
fn open_targets() {
    let open = |edit, start, end| asked(Kind::Open, edit, start, end);
    gives(
        open(Edit::Deletion, 1, 2),
        Ok((Class::Deletion, (4, 4), "A", "", 3)),
    );
    gives(
        leftward(open(Edit::Deletion, 3, 4)),
        Ok((Class::Deletion, (2, 2), "A", "", 3)),
    );
    gives(
        open(Edit::Insertion(b"A"), 0, 2),
        Ok((Class::Duplication, (4, 4), "A", "", 4)),
    );
    gives(
        open(Edit::Insertion(b"C"), 3, 5),
        Ok((Class::Insertion, (4, 5), "", "C", 1)),
    );
    gives(
        open(Edit::Duplication, 1, 2),
        Ok((Class::Duplication, (4, 4), "A", "", 3)),
    );
    gives(
        open(Edit::Replacement(b"CA"), 4, 6),
        Ok((Class::Inversion, (5, 6), "TG", "", 0)),
    );
    gives(
        open(Edit::Inversion, 4, 5),
        Ok((Class::Replacement, (5, 5), "T", "A", 0)),
    );
    gives(
        leftward(open(Edit::Inversion, 5, 11)),
        Ok((Class::Unchanged, (1, 1), "C", "C", 5)),
    );
    gives(
        leftward(open(Edit::Insertion(b"GG"), 10, 12)),
        Err(Refusal::VariantSpanOutsideSequenceBounds),
    );
}

#[test]
fn transcripts() {
    let (one, two) = (exon_bytes(&[(0, 12)]), exon_bytes(&[(0, 4), (4, 12)]));
    let kind = |exons, cds_start| {
        Kind::Transcript(Tables {
            exons,
            cds_start,
            cds_end: None,
        })
    };
    let insertion = |kind| asked(kind, Edit::Insertion(b"C"), 3, 5);
    gives(
        asked(kind(&two, None), Edit::Deletion, 1, 2),
        Ok((Class::Deletion, (4, 4), "A", "", 2)),
    );
    gives(
        insertion(kind(&two, None)),
        Err(Refusal::ExonIntronBoundary),
    );
    gives(
        insertion(kind(&one, Some(4))),
        Err(Refusal::UtrExonBoundary),
    );
    gives(insertion(kind(&one[..7], None)), Err(Refusal::BadTables));
    gives(
        insertion(Kind::Crossing),
        Ok((Class::Insertion, (4, 5), "", "C", 1)),
    );
    let last = |kind| asked(kind, Edit::Insertion(b"AG"), 10, 12);
    let reply = Ok((Class::Replacement, (12, 12), "A", "AGA", 1));
    gives(last(kind(&one, None)), reply);
    gives(last(Kind::Crossing), reply);
}

#[test]
fn one_normalizer_serves_many_requests() {
    let mut normalizer = Normalizer::default();
    let long = asked(Kind::Open, Edit::Replacement(b"TTTTTTTT"), 0, 6);
    let short = asked(Kind::Open, Edit::Deletion, 0, 1);
    assert!(normalizer.normalize(&long).is_ok());
    assert_eq!(normalizer.normalize(&short).unwrap().reference, b"C");
    assert_eq!(normalizer.normalize(&short).unwrap().alternative, b"");
}
