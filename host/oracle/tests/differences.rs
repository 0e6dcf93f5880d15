//! Where the Rust and docs/RULES.md part: the smallest input of each known difference, what the Rust
//! does, and which row refuses it. Nothing is asked where the text is not at hand.

use oracle::{Answer, Oracle, Verdict};
use requests::comparison::{outside, Outside};
use requests::Request;

fn row_of(request: &Request) -> u32 {
    match model::verdict(&request.lent()) {
        model::Verdict::Refused(row) => row,
        model::Verdict::Answered(_) => 0,
    }
}

/// The Rust gives `rust`, the rules refuse by `row`, and the rule leaves it out for `reason`.
fn parts(request: &Request, rust: Verdict, row: u32, reason: Outside) {
    let Some(mut oracle) = Oracle::new() else {
        return;
    };
    assert_eq!(oracle.answer(request), rust, "\n{request}");
    assert_eq!(row_of(request), row, "\n{request}");
    assert_eq!(outside(request, row), Some(reason), "\n{request}");
}

fn answered(class: u32, range: (i32, i32), reference: &str, alternative: &str) -> Verdict {
    Verdict::Answered(Answer {
        class,
        start: range.0,
        end: range.1,
        reference: reference.to_string(),
        alternative: alternative.to_string(),
    })
}

fn asked(target: &str, kind: u32, edit: u32, range: (i32, i32), alternative: &str) -> Request {
    let mut request = Request {
        kind,
        edit,
        start: range.0,
        end: range.1,
        alternative: alternative.as_bytes().to_vec(),
        ..Request::over(target.as_bytes().to_vec())
    };
    request.set_exon_pairs(&[(0, target.len() as u32)]);
    request
}

#[test]
fn an_open_range_may_pass_the_end() {
    let insertion = asked("A", 0, 0, (0, 2), "C");
    parts(
        &insertion,
        answered(1, (1, 2), "", "C"),
        5,
        Outside::OpenEnd,
    );
    let deletion = asked("A", 0, 2, (0, 2), "");
    parts(&deletion, Verdict::Refused(16), 5, Outside::OpenEnd);
}

#[test]
fn an_empty_insertion_is_no_change() {
    let request = asked("AA", 0, 0, (0, 2), "");
    parts(&request, answered(6, (2, 2), "", ""), 6, Outside::AddedRow);
}

#[test]
fn an_insertion_may_have_other_flanks() {
    let request = asked("A", 0, 0, (0, 1), "C");
    parts(&request, answered(1, (1, 2), "", "C"), 6, Outside::AddedRow);
}

#[test]
fn an_empty_range_is_no_change() {
    let request = asked("A", 2, 2, (1, 1), "");
    parts(
        &request,
        answered(6, (1, 1), "", ""),
        5,
        Outside::EmptyRange,
    );
}

#[test]
fn the_same_bases_are_no_change_before_the_range_is_looked_at() {
    let request = asked("A", 1, 3, (0, 2), "A");
    parts(
        &request,
        answered(6, (1, 2), "A", "A"),
        5,
        Outside::IdentityFirst,
    );
    let request = asked("A", 1, 3, (-1, 1), "A");
    parts(
        &request,
        answered(6, (0, 1), "A", "A"),
        5,
        Outside::IdentityFirst,
    );
}

#[test]
fn a_window_of_0_moves_nothing() {
    let request = Request {
        window: 0,
        ..asked("AA", 0, 2, (0, 1), "")
    };
    parts(&request, answered(3, (1, 1), "A", ""), 2, Outside::AddedRow);
}

#[test]
fn alleles_may_be_of_any_length() {
    let target = "A".repeat(1_025);
    let request = asked(&target, 0, 2, (0, 1_025), "");
    parts(
        &request,
        answered(3, (1, 1_025), &target, ""),
        7,
        Outside::AddedRow,
    );
}

#[test]
fn tables_may_be_in_any_order() {
    let mut request = asked("AA", 1, 2, (0, 1), "");
    request.set_exon_pairs(&[(1, 2), (0, 1)]);
    parts(
        &request,
        answered(3, (1, 1), "A", ""),
        10,
        Outside::AddedRow,
    );
}

#[test]
fn other_letters_are_taken() {
    let request = asked("N", 0, 2, (0, 1), "");
    parts(&request, answered(3, (1, 1), "N", ""), 4, Outside::AddedRow);
    let request = asked("AA", 0, 0, (0, 2), "N");
    parts(&request, answered(1, (1, 2), "", "N"), 8, Outside::AddedRow);
}
