//! Well-formed schedules, and what is asked of their words.

use leap::ffi::Words;

use crate::days::{month_end, month_of, month_start, LAST_EXPIRY, LAST_MONTH};
use crate::random::Random;

pub const COUNT: usize = 512;
pub const EXPIRY: usize = 513;
pub const MAX_GAP: u32 = 999;
pub const MAX_LEAPS: usize = 256;

/// A leap's month and sign word.
pub type Leap = (u32, u32);

/// The words of these leaps and an expiry day.
pub fn words_of(leaps: &[Leap], expiry: u32) -> Box<Words> {
    let mut words = Box::new([0; 514]);
    for (place, leap) in words.chunks_exact_mut(2).zip(leaps) {
        place.copy_from_slice(&[leap.0, leap.1]);
    }
    words[COUNT] = leaps.len() as u32;
    words[EXPIRY] = expiry;
    words
}

/// The words of these leaps that expire on the first day of a month.
pub fn to_month(leaps: &[Leap], month: u32) -> Box<Words> {
    words_of(leaps, month_start(month))
}

/// The used places, at most 256 of them.
pub fn leaps_of(words: &Words) -> Vec<Leap> {
    let used = MAX_LEAPS.min(words[COUNT] as usize);
    words
        .chunks_exact(2)
        .take(used)
        .map(|p| (p[0], p[1]))
        .collect()
}

/// The last month of a list's leaps, or 0.
pub fn last_leap(words: &Words) -> u32 {
    match MAX_LEAPS.min(words[COUNT] as usize) {
        0 => 0,
        used => words[2 * used - 2],
    }
}

/// The month that a list's expiry lies in.
pub fn expiry_month(words: &Words) -> u32 {
    month_of(words[EXPIRY])
}

/// The latest expiry after a last leap in that month.
pub fn latest_expiry(last: u32) -> u32 {
    month_end(LAST_MONTH.min(last + MAX_GAP))
}

/// An expiry in a month, after a last leap in that one or before it: often the
/// month's first day, or its second, or its last.
pub fn expiry_in(random: &mut Random, last: u32, month: u32) -> u32 {
    let (first, end) = (month_start(month), month_end(month));
    let earliest = first.max(month_start(last) + 1);
    let day = match random.below(6) {
        0..=2 => first,
        3 => first + 1,
        4 => end,
        _ => random.from(earliest, end),
    };
    day.clamp(earliest, end)
}

/// The list with its expiry rounded down to its month, or in the month after its
/// last leap's where that leaves no gap: one that can be read.
pub fn on_a_first(words: &Words) -> Box<Words> {
    let month = expiry_month(words).max(last_leap(words) + 1);
    to_month(&leaps_of(words), month)
}

#[derive(Clone, Copy)]
enum Signs {
    Positive,
    Negative,
    Mixed,
}

fn sign(random: &mut Random, signs: Signs) -> u32 {
    match signs {
        Signs::Positive => 0,
        Signs::Negative => 1,
        Signs::Mixed => random.from(0, 1),
    }
}

/// Leaps, at most that many, with gaps drawn by `gap`.
fn leaps(
    random: &mut Random,
    most: usize,
    signs: Signs,
    gap: impl Fn(&mut Random) -> u32,
) -> Vec<Leap> {
    let mut leaps: Vec<Leap> = Vec::new();
    let mut month = 0;
    while leaps.len() < most {
        month += gap(random);
        if month >= LAST_MONTH {
            break;
        }
        leaps.push((month, sign(random, signs)));
    }
    leaps
}

/// A list of such leaps, and often one that ends at month 2400.
fn list(
    random: &mut Random,
    most: usize,
    signs: Signs,
    gap: impl Fn(&mut Random) -> u32,
) -> Box<Words> {
    let leaps = leaps(random, most, signs, &gap);
    let last = leaps.last().map_or(0, |leap| leap.0);
    let furthest = LAST_MONTH.min(last + MAX_GAP);
    let month = match random.below(5) {
        0 => furthest,
        1 => random.from(last + 1, furthest),
        2 => last + 1,
        3 => last,
        _ => furthest.min(last + gap(random)),
    };
    words_of(&leaps, expiry_in(random, last, month))
}

/// Lists as they are in use, of up to 40 leaps.
pub fn ordinary(random: &mut Random) -> Box<Words> {
    let signs = random.pick(&[Signs::Positive, Signs::Mixed]);
    let most = random.below(41);
    if random.one_in(2) {
        list(random, most, signs, |r| 6 * r.from(1, 9))
    } else {
        list(random, most, signs, |r| r.from(1, 60))
    }
}

/// 256 leaps, or nearly.
pub fn dense(random: &mut Random) -> Box<Words> {
    let signs = random.pick(&[Signs::Positive, Signs::Negative, Signs::Mixed]);
    let most = random.pick(&[256, 256, 256, 255, 254]);
    match random.below(4) {
        0 => list(random, most, signs, |_| 1),
        1 => list(random, most, signs, |_| 9),
        2 => list(random, most, signs, |r| r.from(1, 17)),
        _ => list(random, most, signs, |r| 6 * r.from(1, 2)),
    }
}

/// Negative leaps alone; where there are many, DTAI falls below zero.
pub fn negative(random: &mut Random) -> Box<Words> {
    let most = random.pick(&[1, 2, 9, 10, 11, 12, 40, 256]);
    let widest = random.pick(&[1, 4, 9, 120, 999]);
    list(random, most, Signs::Negative, |r| r.from(1, widest))
}

/// Few leaps and gaps of 999 or nearly.
pub fn sparse(random: &mut Random) -> Box<Words> {
    let most = random.below(4);
    list(random, most, Signs::Mixed, |r| {
        r.pick(&[999, 999, 998, 990, 984, 500, 402, 403, 401, 1])
    })
}

/// Few leaps, or as many as there may be, and an expiry at an edge: the soonest day
/// and the next, about the end of the last leap's month, about the first day and the
/// last of the month 999 after it, and about month 2400's first.
pub fn edged(random: &mut Random) -> Box<Words> {
    let widest = random.pick(&[1, 12, 300, 999]);
    let most = random.pick(&[0, 0, 1, 2, 3, 256]);
    let leaps = leaps(random, most, Signs::Mixed, |r| r.from(1, widest));
    let last = leaps.last().map_or(0, |leap| leap.0);
    let (soonest, latest) = (month_start(last) + 1, latest_expiry(last));
    let edge = random.pick(&[
        soonest,
        month_end(last),
        month_start(last + MAX_GAP),
        latest,
        LAST_EXPIRY,
    ]);
    let day = edge + random.pick(&[0, 0, 1, 2]) - random.pick(&[0, 0, 1]);
    words_of(&leaps, day.clamp(soonest, latest))
}

/// The official leaps, of which there are 27, as far as they are asked for.
fn official(count: usize) -> Vec<Leap> {
    const GAPS: [u32; 27] = [
        6, 6, 12, 12, 12, 12, 12, 12, 12, 18, 12, 12, 24, 30, 24, 12, 18, 12, 12, 18, 18, 18, 84,
        36, 42, 36, 18,
    ];
    let mut month = 0;
    let leap = |gap: &u32| {
        month += gap;
        (month, 0)
    };
    GAPS[..count].iter().map(leap).collect()
}

/// Lists of 01 and the smallest ones: A, B, N, `5?`, `6+5?`, `1?`, `1+1?`, `1-1?`; and
/// those of 10/14: without leaps to 41360 and to 41318, and B to a 28th.
pub fn known(random: &mut Random) -> Box<Words> {
    match random.below(11) {
        0 => to_month(&official(19), 275),
        1 => to_month(&official(27), 599),
        2 => to_month(&[(6, 1)], 11),
        3 => to_month(&[], 5),
        4 => to_month(&[(6, 0)], 11),
        5 => to_month(&[], 1),
        6 => to_month(&[(1, 0)], 2),
        7 => to_month(&[(1, 1)], 2),
        8 => words_of(&[], 41_360),
        9 => words_of(&[], 41_318),
        _ => words_of(&official(27), month_start(599) + 27),
    }
}

pub fn any(random: &mut Random) -> Box<Words> {
    match random.below(9) {
        0 => dense(random),
        1 => negative(random),
        2 => sparse(random),
        3 => known(random),
        4 => edged(random),
        _ => ordinary(random),
    }
}

/// A list that expires on the first of a month, as those that are read do.
pub fn readable(random: &mut Random) -> Box<Words> {
    on_a_first(&any(random))
}

#[cfg(test)]
mod tests {
    use super::*;
    use second::{well_formed, Raw};

    #[test]
    fn good_lists_are_well_formed() {
        let mut random = Random::new(1);
        for _ in 0..2_000 {
            for make in [ordinary, dense, negative, sparse, edged, known, readable] {
                let words = make(&mut random);
                assert!(well_formed(&Raw::from_words(&words)), "{words:?}");
            }
        }
    }

    #[test]
    fn readable_ones_read_back() {
        let mut random = Random::new(8);
        for _ in 0..2_000 {
            let words = readable(&mut random);
            let mut out = [0; 752];
            let (number, length) = second::write_text(&Raw::from_words(&words), &mut out);
            assert_eq!(number, 0);
            let back = second::read_text(&out[..length as usize]).schedule;
            assert_eq!(back.to_words(), *words);
        }
    }
}
