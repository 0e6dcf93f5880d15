//! What was compared: how many requests, by class and refusal, how many of them with the Rust, and
//! how fast. It tells of its progress on standard error.

use crate::answers::Answers;
use requests::comparison::Outside;
use std::fmt;
use std::time::Instant;

/// After how many requests the progress is told.
const STRIDE: u64 = 10_000_000;

pub struct Tally {
    mode: &'static str,
    begun: Instant,
    asked: u64,
    with_rust: u64,
    outside: [u64; Outside::ALL.len()],
    classes: [u64; 7],
    refusals: [u64; 17],
}

impl Tally {
    pub fn new(mode: &'static str) -> Self {
        Tally {
            mode,
            begun: Instant::now(),
            asked: 0,
            with_rust: 0,
            outside: [0; Outside::ALL.len()],
            classes: [0; 7],
            refusals: [0; 17],
        }
    }

    pub fn count(&mut self, answers: &Answers) {
        let numbers = &answers.model.numbers;
        self.asked += 1;
        self.classes[numbers.class as usize] += 1;
        self.refusals[numbers.refusal as usize] += 1;
        match answers.rust {
            Ok(_) => self.with_rust += 1,
            Err(outside) => self.outside[outside as usize] += 1,
        }
        if self.asked.is_multiple_of(STRIDE) {
            eprintln!(
                "{}: {} requests, {:.0} a second",
                self.mode,
                self.asked,
                self.rate()
            );
        }
    }

    fn rate(&self) -> f64 {
        self.asked as f64 / self.begun.elapsed().as_secs_f64()
    }
}

/// The counts above 0, each with its number.
fn numbered(counts: &[u64]) -> String {
    let counted = counts.iter().enumerate().skip(1);
    let above: Vec<String> = counted
        .filter(|(_, &count)| count > 0)
        .map(|(number, count)| format!("{number}: {count}"))
        .collect();
    above.join(", ")
}

impl fmt::Display for Tally {
    fn fmt(&self, f: &mut fmt::Formatter<'_>) -> fmt::Result {
        let (mode, asked, rate) = (self.mode, self.asked, self.rate());
        writeln!(f, "{mode}: {asked} requests compared, {rate:.0} a second")?;
        writeln!(f, "  with the Rust: {}", self.with_rust)?;
        writeln!(f, "  by class: {}", numbered(&self.classes))?;
        write!(f, "  by refusal: {}", numbered(&self.refusals))?;
        for outside in Outside::ALL {
            let count = self.outside[outside as usize];
            if count > 0 {
                write!(f, "\n  {count} without the Rust: {}", outside.reason())?;
            }
        }
        Ok(())
    }
}
