//! Questions at the edges of a schedule.

use leap::ffi::Words;

use crate::call::{Kind, Question};
use crate::days::{self, FIRST_DAY, LAST_EXPIRY, LAST_MONTH};
use crate::random::Random;
use crate::schedules::{leaps_of, EXPIRY};

pub const SECOND: u64 = 1_000_000;
pub const DAY: u64 = 86_400 * SECOND;

fn month_start(month: u32) -> u64 {
    days::month_start(month).into()
}

fn near(random: &mut Random, value: u64, steps: &[i64]) -> u64 {
    value.wrapping_add_signed(random.pick(steps))
}

/// A day that matters: the first of a leap's month, or the expiry.
fn edge(random: &mut Random, words: &Words) -> u64 {
    let leaps = leaps_of(words);
    if leaps.is_empty() || random.one_in(3) {
        words[EXPIRY].into()
    } else {
        month_start(random.pick(&leaps).0)
    }
}

fn day(random: &mut Random, words: &Words) -> u64 {
    let (first, expiry) = (u64::from(FIRST_DAY), u64::from(words[EXPIRY]));
    match random.below(12) {
        0 => random.pick(&[0, 1, first - 1, 114_364, 114_365, 114_366, 114_367]),
        1 => random.pick(&[
            u64::MAX,
            u64::MAX - 1,
            1 << 63,
            1 << 32 | 41_498,
            1 << 16 | 41_498,
        ]),
        2 => first,
        3 => random.any_size(),
        4 => first + u64::from(random.from(0, 73_050)),
        5 => first + random.bits() % (expiry.saturating_sub(first) + 1),
        6 => near(random, expiry, &[-2, -1, -1, -1, 0, 1]),
        7 => {
            // Months about the Februaries of 1972 and 2100.
            let month = random.pick(&[1, 2, 1_536, 1_537, 1_538]);
            near(random, month_start(month), &[-1, 0])
        }
        _ => {
            let edge = edge(random, words);
            near(random, edge, &[-2, -1, -1, -1, 0, 1])
        }
    }
}

/// UTC microseconds of a day.
fn micros(random: &mut Random) -> u64 {
    const EDGES: [u64; 8] = [
        0,
        85_399 * SECOND,
        85_400 * SECOND,
        85_401 * SECOND,
        86_398 * SECOND,
        86_399 * SECOND,
        86_400 * SECOND,
        86_401 * SECOND,
    ];
    const STEPS: [i64; 9] = [-1_000_000, -500_000, -1, 0, 0, 1, 1_000, 500_000, 1_000_000];
    match random.below(10) {
        0 => random.any_size(),
        1 => random.pick(&[
            u64::MAX,
            u64::MAX - 1,
            1 << 63,
            1 << 32,
            DAY << 1,
            DAY * 1_000,
        ]),
        2 => random.bits() % (DAY + 2 * SECOND),
        3 | 4 => 85_398 * SECOND + random.bits() % (1_004 * SECOND),
        5 => (85_398 + random.bits() % 1_004) * SECOND,
        _ => {
            let edge = random.pick(&EDGES);
            near(random, edge, &STEPS)
        }
    }
}

/// UTS nanoseconds of a day: 1000 x UTC, or the UTS of an instant, or close by.
fn nanos(random: &mut Random, words: &Words, mjd: u64) -> u64 {
    let micros = micros(random);
    let uts = match second::utc_to_uts(&second::Raw::from_words(words), mjd, micros) {
        (0, uts) if random.one_in(2) => uts,
        _ => micros.wrapping_mul(1_000),
    };
    match random.below(8) {
        0 => random.any_size(),
        1 => uts.wrapping_add(random.bits() % 1_000),
        _ => near(random, uts, &[-1, 0, 0, 1]),
    }
}

/// TAI at the start of a day, by 01's formula; of the last expiry for one after it.
pub fn tai_at(words: &Words, mjd: u64) -> u64 {
    let day = mjd.clamp(FIRST_DAY.into(), LAST_EXPIRY.into());
    let dtai: i64 = leaps_of(words)
        .iter()
        .filter(|leap| month_start(leap.0) <= day)
        .map(|leap| if leap.1 == 0 { 1 } else { -1 })
        .sum();
    (DAY * (day - u64::from(FIRST_DAY))).wrapping_add_signed((10 + dtai) * SECOND as i64)
}

fn tai(random: &mut Random, words: &Words) -> u64 {
    const STEPS: [i64; 9] = [
        -2_000_000, -1_000_001, -1_000_000, -999_999, -1, 0, 1, 999_999, 1_000_000,
    ];
    match random.below(12) {
        0 => random.pick(&[0, 1, 9_999_999, 10_000_000, 10_000_001]),
        1 => random.pick(&[u64::MAX, u64::MAX - 1, 1 << 63]),
        2 => random.any_size(),
        3 => random.bits() % tai_at(words, month_start(LAST_MONTH)),
        4 => random.bits() % tai_at(words, words[EXPIRY].into()).saturating_add(SECOND),
        5 | 6 => {
            // The end of Z, and a second before it, where it may be cut off.
            let end = tai_at(words, words[EXPIRY].into());
            near(random, end, &STEPS)
        }
        _ => {
            let edge = edge(random, words);
            near(random, tai_at(words, edge), &STEPS)
        }
    }
}

/// The kinds of ten questions: all the same, or any.
pub fn kinds(random: &mut Random) -> [Kind; 10] {
    match random.one_in(2) {
        true => [random.pick(&Kind::ALL); 10],
        false => std::array::from_fn(|_| random.pick(&Kind::ALL)),
    }
}

/// A time of Z at its cut-offs, at its end or a second later, or just before or after
/// one of these; in that many parts of a microsecond.
fn end_of_knowledge(random: &mut Random, parts: u64) -> u64 {
    let seconds = random.pick(&[85_399, 86_399, 86_400, 86_401]);
    near(random, seconds * SECOND * parts, &[-1, 0, 0, 1])
}

pub fn question(random: &mut Random, words: &Words, kind: Kind) -> Question {
    let parts = match kind {
        Kind::UtcToTai | Kind::UtcToUts => Some(1),
        Kind::UtsToUtc => Some(1_000),
        Kind::Dtai | Kind::TaiToUtc => None,
    };
    if let Some(parts) = parts.filter(|_| random.one_in(8)) {
        return Question {
            kind,
            first: u64::from(words[EXPIRY]).wrapping_sub(1),
            second: end_of_knowledge(random, parts),
        };
    }
    let first = match kind {
        Kind::TaiToUtc => tai(random, words),
        _ => day(random, words),
    };
    let second = match kind {
        Kind::Dtai | Kind::TaiToUtc => 0,
        Kind::UtcToTai | Kind::UtcToUts => micros(random),
        Kind::UtsToUtc => nanos(random, words, first),
    };
    Question {
        kind,
        first,
        second,
    }
}
