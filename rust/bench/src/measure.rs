//! Rounds, interleaved, and what they have in common: the median and the middle
//! half.

use std::time::Instant;

/// Odd, so that the median and both quartiles are rounds themselves.
pub const ROUNDS: usize = 41;

/// Something to time: a round makes so many calls.
pub struct Case<'a> {
    pub what: &'static str,
    pub program: &'static str,
    pub calls: usize,
    pub round: Box<dyn FnMut() + 'a>,
}

/// The nanoseconds of a call.
#[derive(Clone, Copy)]
pub struct Spread {
    pub low: f64,
    pub median: f64,
    pub high: f64,
}

pub struct Timed {
    pub what: &'static str,
    pub program: &'static str,
    pub spread: Spread,
}

/// Every case's first round, then every case's second, and so on. Before each
/// round the case runs once untimed, so that all start alike.
pub fn measure(mut cases: Vec<Case>) -> Vec<Timed> {
    let mut times = vec![Vec::with_capacity(ROUNDS); cases.len()];
    for _ in 0..ROUNDS {
        for (case, times) in cases.iter_mut().zip(&mut times) {
            (case.round)();
            let start = Instant::now();
            (case.round)();
            let nanos = start.elapsed().as_nanos();
            times.push(nanos as f64 / case.calls as f64);
        }
    }
    let timed = |(case, times): (&Case, &mut Vec<f64>)| Timed {
        what: case.what,
        program: case.program,
        spread: spread(times),
    };
    cases.iter().zip(&mut times).map(timed).collect()
}

fn spread(times: &mut [f64]) -> Spread {
    times.sort_by(f64::total_cmp);
    let at = |quarter: usize| times[quarter * (times.len() - 1) / 4];
    Spread {
        low: at(1),
        median: at(2),
        high: at(3),
    }
}

/// The median of what a program needs, if it was timed.
pub fn median(timed: &[Timed], what: &str, program: &str) -> Option<f64> {
    let mut found = timed.iter();
    let found = found.find(|t| t.what == what && t.program == program);
    found.map(|t| t.spread.median)
}
