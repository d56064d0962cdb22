//! Two lists: where they part, whether one extends the other, and which of two
//! is the longer (requests 7/14 and 10/14 of `02-change-requests.md`).
//!
//! Both are looked at side by side, one month after the other from 0 to 2400.

use crate::calendar::LAST_MONTH;
use crate::refusal::*;
use crate::schedule::{Raw, Schedule};
use crate::text;

/// What a list says of a month.
#[derive(Clone, Copy, PartialEq, Eq)]
enum Says {
    Positive,
    Negative,
    NoLeap,
    /// It starts on or after the list's expiry day.
    Unknown,
}

use Says::{Negative, NoLeap, Positive, Unknown};

impl Says {
    fn of(list: &Schedule, month: u32) -> Says {
        match list.strip().get(month as usize) {
            None => Unknown,
            Some(0) => NoLeap,
            Some(leap) if *leap > 0 => Positive,
            Some(_) => Negative,
        }
    }

    fn is_leap(self) -> bool {
        self == Positive || self == Negative
    }

    fn mark(self) -> char {
        match self {
            Positive => '+',
            Negative => '-',
            NoLeap => '0',
            Unknown => '?',
        }
    }
}

/// Whether one list extends the other: in every month that the shorter knows, which
/// is one that starts before its expiry day, both say the same, and the longer
/// expires no earlier.
fn is_extension(longer: &Schedule, shorter: &Schedule) -> bool {
    let mut known = 0..shorter.strip().len() as u32;
    longer.expiry() >= shorter.expiry()
        && known.all(|month| Says::of(longer, month) == Says::of(shorter, month))
}

/// What two lists are to each other.
#[derive(Clone, Copy, Debug, PartialEq, Eq)]
pub enum Relation {
    Same,
    /// The first extends the second.
    Extends1,
    /// The second extends the first.
    Extends2,
    Contradict,
}

impl Relation {
    fn of(first: &Schedule, second: &Schedule) -> Relation {
        match (is_extension(first, second), is_extension(second, first)) {
            (true, true) => Relation::Same,
            (true, false) => Relation::Extends1,
            (false, true) => Relation::Extends2,
            (false, false) => Relation::Contradict,
        }
    }

    fn line(self) -> &'static str {
        match self {
            Relation::Same => "same",
            Relation::Extends1 => "extends 1",
            Relation::Extends2 => "extends 2",
            Relation::Contradict => "contradict",
        }
    }
}

/// Both lists, or the number of the first that does not read.
fn read_both(first: &[u8], second: &[u8]) -> Result<(Schedule, Schedule), u8> {
    let first = text::parse(first).map_err(|(number, _)| number)?;
    let second = text::parse(second).map_err(|(number, _)| number)?;
    Ok((first, second))
}

/// The lines of a comparison, without their LF.
pub fn lines(first: &[u8], second: &[u8]) -> Result<Vec<String>, u8> {
    let (first, second) = read_both(first, second)?;
    let mut lines = Vec::new();
    for month in 0..=LAST_MONTH {
        let (one, other) = (Says::of(&first, month), Says::of(&second, month));
        if (one.is_leap() || other.is_leap()) && one != other {
            lines.push(format!("{month} {} {}", one.mark(), other.mark()));
        }
    }
    let (one, other) = (first.expiry_mjd(), second.expiry_mjd());
    if one != other {
        lines.push(format!("= {one} {other}"));
    }
    lines.push(Relation::of(&first, &second).line().to_string());
    Ok(lines)
}

/// Of two lists that do not contradict, the longer one's own bytes, and the
/// first's if they are the same.
pub fn longer<'a>(first: &'a [u8], second: &'a [u8]) -> Result<&'a [u8], u8> {
    let (one, other) = read_both(first, second)?;
    match Relation::of(&one, &other) {
        Relation::Same | Relation::Extends1 => Ok(first),
        Relation::Extends2 => Ok(second),
        Relation::Contradict => Err(CONTRADICTION),
    }
}

/// Writes a comparison, each line ended by LF, to the start of `out`: the
/// number and how many bytes. A refusal changes no byte.
pub fn compare_text(first: &[u8], second: &[u8], out: &mut [u8]) -> (u8, u64) {
    let ended = |lines: Vec<String>| {
        let all: String = lines.iter().map(|line| format!("{line}\n")).collect();
        all.into_bytes()
    };
    text::deliver(lines(first, second).map(ended), out)
}

/// The number and the longer list's own bytes; a refusal hands back the empty
/// start of the first.
pub fn longer_text<'a>(first: &'a [u8], second: &'a [u8]) -> (u8, &'a [u8]) {
    match longer(first, second) {
        Ok(list) => (ACCEPTED, list),
        Err(number) => (number, &first[..0]),
    }
}

/// The number, and whether the first of two schedules extends the second.
pub fn extends(longer: &Raw, shorter: &Raw) -> (u8, bool) {
    match (Schedule::from_raw(longer), Schedule::from_raw(shorter)) {
        (Some(longer), Some(shorter)) => (ACCEPTED, is_extension(&longer, &shorter)),
        _ => (NOT_WELL_FORMED, false),
    }
}
