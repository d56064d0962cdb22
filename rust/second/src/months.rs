//! The month of every day from MJD 41310 to 114370, in the lines of the proved
//! program `months`, to compare the two outputs: a line for each stretch of days
//! with one answer, its first day, its last day and the answer; at last how many
//! days there are.

use std::ops::RangeInclusive;

use crate::calendar::{calendar, FIRST_MJD, LAST_MONTH};
use crate::refusal::{BEFORE_1972, NOT_KNOWN};

const DAYS: RangeInclusive<u64> = 41_310..=114_370;

/// The month of a day, or `!` and the number of the refusal.
fn month(mjd: u64) -> String {
    let Some(place) = mjd.checked_sub(FIRST_MJD) else {
        return format!("!{BEFORE_1972}");
    };
    match calendar().days.get(place as usize) {
        Some(date) if date.number < LAST_MONTH => date.number.to_string(),
        _ => format!("!{NOT_KNOWN}"),
    }
}

pub fn lines() -> Vec<String> {
    let answers: Vec<(u64, String)> = DAYS.map(|mjd| (mjd, month(mjd))).collect();
    let stretches = answers.chunk_by(|a, b| a.1 == b.1);
    let mut lines: Vec<String> = stretches
        .map(|days| format!("{} {} {}", days[0].0, days[days.len() - 1].0, days[0].1))
        .collect();
    lines.push(format!("{} days", answers.len()));
    lines
}
