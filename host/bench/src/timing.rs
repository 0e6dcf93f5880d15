//! Timing in turns: both sides see the same noise, and the median leaves most of it out.

use std::time::{Duration, Instant};

const ROUNDS: usize = 15;
/// How long one side runs in one round, at least.
const ROUND: Duration = Duration::from_millis(20);

/// Nanoseconds a request of each round, of both sides.
pub struct Turns {
    first: Vec<f64>,
    second: Vec<f64>,
}

impl Turns {
    /// Times both sides in turns. Each call of a side puts `requests` requests.
    pub fn take(requests: usize, first: &mut dyn FnMut(), second: &mut dyn FnMut()) -> Self {
        let calls_of_first = calls_for_a_round(first);
        let calls_of_second = calls_for_a_round(second);
        let mut turns = Turns {
            first: Vec::new(),
            second: Vec::new(),
        };
        for _ in 0..ROUNDS {
            turns.first.push(timed(requests, calls_of_first, first));
            turns.second.push(timed(requests, calls_of_second, second));
        }
        turns
    }

    pub fn medians(mut self) -> (f64, f64) {
        (median(&mut self.first), median(&mut self.second))
    }
}

/// How many calls fill a round; the calls made to find out warm the side up.
fn calls_for_a_round(side: &mut dyn FnMut()) -> u32 {
    let begun = Instant::now();
    let mut calls = 0;
    while begun.elapsed() < ROUND {
        side();
        calls += 1;
    }
    calls
}

fn timed(requests: usize, calls: u32, side: &mut dyn FnMut()) -> f64 {
    let begun = Instant::now();
    for _ in 0..calls {
        side();
    }
    begun.elapsed().as_nanos() as f64 / (f64::from(calls) * requests as f64)
}

fn median(rounds: &mut [f64]) -> f64 {
    rounds.sort_by(f64::total_cmp);
    rounds[rounds.len() / 2]
}
