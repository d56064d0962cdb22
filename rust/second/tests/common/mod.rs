//! Random lists for the tests.
#![allow(dead_code)]

use std::sync::OnceLock;

use second::Raw;

/// xorshift64*, seeded per test so that every run is the same.
pub struct Rng(u64);

impl Rng {
    pub fn new(seed: u64) -> Rng {
        Rng(seed.wrapping_mul(0x9e37_79b9_7f4a_7c15) | 1)
    }

    pub fn next(&mut self) -> u64 {
        self.0 ^= self.0 >> 12;
        self.0 ^= self.0 << 25;
        self.0 ^= self.0 >> 27;
        self.0.wrapping_mul(0x2545_f491_4f6c_dd1d)
    }

    /// A number from `low` to `high`, both taken.
    pub fn range(&mut self, low: u64, high: u64) -> u64 {
        low + ((u128::from(self.next()) * u128::from(high - low + 1)) >> 64) as u64
    }

    pub fn chance(&mut self, one_in: u64) -> bool {
        self.range(1, one_in) == 1
    }

    pub fn pick<T: Copy>(&mut self, from: &[T]) -> T {
        from[self.range(0, from.len() as u64 - 1) as usize]
    }
}

pub fn raw(leaps: &[(u32, u32)], expiry_mjd: u32) -> Raw {
    let mut r = Raw::blank();
    r.words[..leaps.len()].copy_from_slice(leaps);
    r.count = leaps.len() as u32;
    r.expiry_mjd = expiry_mjd;
    r
}

/// A schedule that expires on the first day of a month.
pub fn to_month(leaps: &[(u32, u32)], month: u32) -> Raw {
    raw(leaps, month_mjd(month) as u32)
}

pub fn leaps_of(r: &Raw) -> &[(u32, u32)] {
    &r.words[..r.count as usize]
}

fn gap(rng: &mut Rng, flavour: u64) -> u32 {
    (match flavour {
        0 => rng.range(1, 4),
        1 => 6 * rng.range(1, 9),
        2 => rng.range(1, 60),
        3 => 6 * rng.range(1, 166),
        4 => 1,
        _ => rng.range(1, 999),
    }) as u32
}

/// An expiry day for a last leap in month `last` that lies in month `month`, which
/// is at most 999 after it: its first day, its second, its last or another.
fn expiry(rng: &mut Rng, last: u32, month: u32) -> u32 {
    let first = month_mjd(month);
    // Later than the last leap's month starts, and no later than month 2400.
    let earliest = first.max(month_mjd(last) + 1);
    let latest = (month_mjd(month + 1) - 1).min(114_366);
    let day = match rng.range(0, 4) {
        0 => latest,
        1 => first + 1,
        2 => rng.range(first, latest),
        _ => first,
    };
    day.clamp(earliest, latest) as u32
}

/// A well-formed schedule; dense, usual, long or crowded ones all occur, and of the
/// expiries more than half are no first of a month.
pub fn list(rng: &mut Rng) -> Raw {
    let flavour = rng.range(0, 6);
    let signs = rng.range(0, 3);
    let most = if rng.chance(3) {
        256
    } else {
        rng.range(0, 256)
    };
    let end = if rng.chance(3) {
        2400
    } else {
        rng.range(1, 2400) as u32
    };
    let mut leaps: Vec<(u32, u32)> = Vec::new();
    let mut at = 0;
    while (leaps.len() as u64) < most {
        let next = at + gap(rng, flavour);
        if next >= end {
            break;
        }
        at = next;
        let negative = match signs {
            0 => 0,
            1 => 1,
            _ => rng.range(0, 1),
        };
        leaps.push((at, negative as u32));
    }
    let month = match rng.range(0, 4) {
        0 | 1 if end - at <= 999 => end,
        2 => at,
        _ => (at + gap(rng, flavour)).min(2400).min(at + 999),
    };
    let expiry = expiry(rng, at, month);
    raw(&leaps, expiry)
}

/// The list with its expiry rounded down to its month, or to the month after the
/// last leap's where that leaves no gap.
pub fn on_a_first(s: &Raw) -> Raw {
    let last = leaps_of(s).last().map_or(0, |leap| leap.0);
    to_month(leaps_of(s), month_of(s.expiry_mjd.into()).max(last + 1))
}

/// A list that expires on the first of a month, as those that are read do.
pub fn first_list(rng: &mut Rng) -> Raw {
    on_a_first(&list(rng))
}

/// A list that extends the given one.
pub fn longer(rng: &mut Rng, shorter: &Raw) -> Raw {
    let mut leaps = leaps_of(shorter).to_vec();
    let mut at = leaps.last().map_or(0, |l| l.0);
    // The first month that starts on or after the shorter one's expiry.
    let unknown = month_of(u64::from(shorter.expiry_mjd) - 1) + 1;
    let more = rng.pick(&[0, 0, 1, 1, 2, 5, 256]);
    for _ in 0..more {
        if leaps.len() == 256 {
            break;
        }
        let first = unknown.max(at + 1);
        let last = (at + 999).min(2399);
        if first > last {
            break;
        }
        // Often as soon as it may be.
        at = if rng.chance(3) {
            first
        } else {
            rng.range(first.into(), last.min(first + 40).into()) as u32
        };
        leaps.push((at, rng.range(0, 1) as u32));
    }
    let soonest = shorter.expiry_mjd.max(month_mjd(at) as u32 + 1);
    if rng.chance(3) {
        return raw(&leaps, soonest);
    }
    let latest = (month_mjd(at + 1_000) - 1).min(114_366) as u32;
    let later = if rng.chance(2) {
        // Within days.
        rng.range(soonest.into(), latest.min(soonest + 40).into()) as u32
    } else {
        let month = rng.range(
            month_of(soonest.into()).into(),
            month_of(latest.into()).into(),
        );
        expiry(rng, at, month as u32)
    };
    raw(&leaps, later.max(soonest))
}

/// MJDs of the months' first days, counted month by month, also of some after 2400.
fn firsts() -> &'static [u64] {
    static COUNTED: OnceLock<Vec<u64>> = OnceLock::new();
    COUNTED.get_or_init(|| {
        let mut firsts = vec![41_317];
        for m in 0..4_000 {
            let year = 1972 + m / 12;
            let mut days = [31, 28, 31, 30, 31, 30, 31, 31, 30, 31, 30, 31][m % 12];
            if m % 12 == 1 && year % 4 == 0 && ![2100, 2200, 2300].contains(&year) {
                days += 1;
            }
            firsts.push(firsts[m] + days);
        }
        firsts
    })
}

/// The MJD of a month's first day.
pub fn month_mjd(month: u32) -> u64 {
    firsts()[month as usize]
}

/// The month that a day from 1972 on lies in.
pub fn month_of(mjd: u64) -> u32 {
    firsts().partition_point(|&first| first <= mjd) as u32 - 1
}
