//! The benchmark: product and Rust on the same requests in one run, in turns. Both have their target
//! lent beforehand and their request spelled beforehand, so that neither copying a target nor
//! spelling a change is timed. It prints nanoseconds a request, the median of the rounds, and how
//! many times faster the product is.

mod mixes;
mod sides;
mod timing;

use sides::{Product, Rust};
use std::process::ExitCode;
use timing::Turns;

fn main() -> ExitCode {
    if std::env::args().len() > 1 {
        eprintln!("bench: give no argument");
        return ExitCode::from(2);
    }
    match table() {
        Some(()) => ExitCode::SUCCESS,
        None => {
            eprintln!("bench: {}", oracle::NOT_AT_HAND);
            ExitCode::from(2)
        }
    }
}

/// Prints a line for each mix; none where the text of the Rust is not at hand.
fn table() -> Option<()> {
    for (line, mix) in mixes::all().iter().enumerate() {
        let product = Product::new(&mix.requests);
        let rust = Rust::new(&mix.requests)?;
        if line == 0 {
            println!(
                "{:<38}{:>12}{:>12}{:>9}",
                "ns a request", "product", "Rust", "ratio"
            );
        }
        let turns = Turns::take(
            mix.requests.len(),
            &mut product.runner(),
            &mut rust.runner(),
        );
        let (product, rust) = turns.medians();
        let ratio = rust / product;
        println!("{:<38}{product:>12.0}{rust:>12.0}{ratio:>9.2}", mix.name);
    }
    Some(())
}
