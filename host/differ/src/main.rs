//! The differential runner. It puts each request to the product, to the model of docs/RULES.md and,
//! where `requests::comparison` allows, to the Rust, and compares every number, every byte written
//! and not written, and every refusal.
//!
//! Exit status: 0 no difference, 1 a difference (the smallest request that still shows it is
//! printed), 2 it cannot run.

mod answers;
mod arguments;
mod shrink;
mod tally;

use answers::{Asker, Difference};
use arguments::{Arguments, Mode};
use requests::{damaged, exhaustive, random, Request, Visit};
use std::process::ExitCode;
use tally::Tally;

fn main() -> ExitCode {
    let given: Vec<String> = std::env::args().skip(1).collect();
    let arguments = match Arguments::read(&given) {
        Ok(arguments) => arguments,
        Err(sentence) => return cannot_run(&sentence),
    };
    let Some(mut asker) = Asker::new() else {
        return cannot_run(oracle::NOT_AT_HAND);
    };
    for mode in arguments.modes {
        if let Some(found) = run(mode, arguments.seed, arguments.count, &mut asker) {
            report(found, &mut asker);
            return ExitCode::from(1);
        }
    }
    ExitCode::SUCCESS
}

fn cannot_run(sentence: &str) -> ExitCode {
    eprintln!("differ: {sentence}");
    ExitCode::from(2)
}

/// A request on which the answers part, and how.
type Found = (Request, Difference);

/// Runs one mode, up to the first difference.
fn run(mode: Mode, seed: u64, count: u64, asker: &mut Asker) -> Option<Found> {
    let mut tally = Tally::new(mode.name());
    let mut found = None;
    let visit: Visit = &mut |request| {
        let answers = asker.ask(request);
        tally.count(&answers);
        let difference = answers.difference();
        found = difference.map(|difference| (request.clone(), difference));
        found.is_none()
    };
    match mode {
        Mode::Exhaustive => exhaustive::each(seed, count, &mut |level| eprintln!("{level}"), visit),
        Mode::Random => random::each(seed, count, visit),
        Mode::Damaged => damaged::each(seed, count, visit),
    }
    println!("{tally}");
    found
}

/// Prints the smallest request that still shows the difference, with all answers.
fn report((request, difference): Found, asker: &mut Asker) {
    let mut still = |smaller: &Request| asker.ask(smaller).difference() == Some(difference);
    let smallest = shrink::smallest(&request, &mut still);
    println!("the answers differ on\n{smallest}{}", asker.ask(&smallest));
}
