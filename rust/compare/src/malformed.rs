//! Words that stand for no list: schedules with one thing wrong.

use leap::ffi::Words;

use crate::days::{days_back, month_start, nearest_month, FIRST_DAY, LAST_EXPIRY, LAST_MONTH};
use crate::random::Random;
use crate::schedules::{
    any, dense, expiry_month, last_leap, latest_expiry, leaps_of, words_of, COUNT, EXPIRY, MAX_GAP,
    MAX_LEAPS,
};

/// A list with an unused place.
fn with_room(random: &mut Random) -> Box<Words> {
    loop {
        let words = any(random);
        if words[COUNT] < MAX_LEAPS as u32 {
            return words;
        }
    }
}

/// The index of an unused place's month word: often the first or the last one.
fn unused_place(random: &mut Random, words: &Words) -> usize {
    let count = words[COUNT] as usize;
    let any = count + random.below(MAX_LEAPS - count);
    2 * random.pick(&[count, MAX_LEAPS - 1, any])
}

/// The index of a used place's month word, if there is one and by chance.
fn used_place(random: &mut Random, words: &Words) -> Option<usize> {
    let count = words[COUNT] as usize;
    if count == 0 || random.one_in(2) {
        return None;
    }
    let any = random.below(count);
    Some(2 * random.pick(&[0, count - 1, any]))
}

/// A count that is over 256, or not the number of leaps.
pub fn bad_count(random: &mut Random) -> Box<Words> {
    if random.one_in(8) {
        let mut words = dense(random);
        words[COUNT] = random.pick(&[257, 258, 512, 65_536 + 256, u32::MAX]);
        return words;
    }
    let mut words = with_room(random);
    let count = words[COUNT];
    words[COUNT] = match random.below(7) {
        0 => 257,
        1 => u32::MAX,
        2 => 65_536 + count,
        3 => 257 + count,
        4 => 1 << 31 | count,
        5 if count > 0 => count - 1,
        _ => count + 1,
    };
    words
}

/// A sign word other than 0 or 1 in a used place, or than 0 in an unused one.
pub fn bad_sign(random: &mut Random) -> Box<Words> {
    const OTHERS: [u32; 8] = [1, 2, 3, 256, 65_536, 65_537, 1 << 31, u32::MAX];
    let mut words = with_room(random);
    match used_place(random, &words) {
        Some(used) => words[used + 1] = random.pick(&OTHERS[1..]),
        None => {
            let unused = unused_place(random, &words);
            words[unused + 1] = random.pick(&OTHERS);
        }
    }
    words
}

/// A month word that is over 2400 or over 16 bits, in a used place or not.
pub fn bad_month(random: &mut Random) -> Box<Words> {
    let mut words = with_room(random);
    let place = used_place(random, &words);
    let place = place.unwrap_or_else(|| unused_place(random, &words));
    let valid = random.pick(&[words[place], words[0]]);
    words[place] = match random.below(6) {
        0 => 65_536,
        1 => u32::MAX,
        2 => 65_536 + valid,
        3 => 1 << 31 | valid,
        4 => LAST_MONTH + 1,
        _ => 65_536 * random.from(1, 65_535) + valid,
    };
    words
}

/// An unused place with a month that would be in order.
pub fn bad_unused(random: &mut Random) -> Box<Words> {
    let mut words = with_room(random);
    let unused = unused_place(random, &words);
    let expiry = expiry_month(&words).max(1);
    words[unused] = match random.below(4) {
        0 => 1,
        1 => expiry,
        2 => (expiry + 1).min(LAST_MONTH),
        _ => random.from(1, LAST_MONTH),
    };
    words
}

/// An expiry moved by so many months; past the last one where it would be past 2400.
fn moved(expiry: u32, months: i64) -> u32 {
    let month = nearest_month(expiry.into());
    let to = i64::from(month) + months;
    match u32::try_from(to) {
        Ok(to) if to > LAST_MONTH => LAST_EXPIRY + 31 * (to - LAST_MONTH),
        Ok(to) if to > month => expiry + (month_start(to) - month_start(month)),
        Ok(_) => expiry - days_back(expiry.into(), months.unsigned_abs() as u32),
        Err(_) => 0,
    }
}

/// A gap between leaps of 0 or 1000, or months that fall.
pub fn bad_gap(random: &mut Random) -> Box<Words> {
    loop {
        let words = any(random);
        let mut leaps = leaps_of(&words);
        if leaps.is_empty() {
            continue;
        }
        let at = random.below(leaps.len());
        let before = if at == 0 { 0 } else { leaps[at - 1].0 };
        let month = match random.below(5) {
            0 => before,
            1 => before + 1_000,
            2 => before + random.from(1_000, 1_400),
            3 => before.saturating_sub(1),
            _ => random.from(0, before),
        };
        // Those after it keep their gaps.
        let shift = i64::from(month) - i64::from(leaps[at].0);
        let shifted = |m: u32| u32::try_from(i64::from(m) + shift).unwrap_or(0);
        leaps[at..].iter_mut().for_each(|l| l.0 = shifted(l.0));
        let expiry = moved(words[EXPIRY], shift);
        // Past the last expiry it would be refused for that as well.
        if expiry <= LAST_EXPIRY || random.one_in(8) {
            return words_of(&leaps, expiry);
        }
    }
}

/// An expiry that is not later than the first day of the last leap's month, or too
/// late: in a month too far from that one, or past month 2400's first day.
pub fn bad_expiry(random: &mut Random) -> Box<Words> {
    let mut words = any(random);
    let last = last_leap(&words);
    let (first, latest) = (month_start(last), latest_expiry(last));
    words[EXPIRY] = match random.below(9) {
        0 | 1 => first,
        2 => first - 1,
        3 => random.from(FIRST_DAY - 1, first),
        // The first of the 1000th month after it, or 114367.
        4 | 5 => latest + 1,
        6 => random.from(latest + 1, LAST_EXPIRY + 2),
        // In reach of the last leap, and a day too far.
        _ => {
            let last = random.from(LAST_MONTH - MAX_GAP, LAST_MONTH - 1);
            words = words_of(&[(900, 0), (1_400, 1), (last, 0)], 0);
            LAST_EXPIRY + 1
        }
    };
    words
}

/// An expiry that is no day here: a month number, as in the first version of the
/// interface, 0, or one of more bits; and the blank schedule.
pub fn no_expiry(random: &mut Random) -> Box<Words> {
    let mut words = any(random);
    let expiry = words[EXPIRY];
    words[EXPIRY] = match random.below(9) {
        0..=2 => expiry_month(&words),
        3 => random.from(1, LAST_MONTH),
        4 => 0,
        5 => u32::MAX,
        6 => 65_536 + expiry,
        7 => 1 << 31 | expiry,
        _ => 65_536 * random.from(1, 65_533) + expiry,
    };
    if random.one_in(16) {
        *words = [0; 514];
    }
    words
}

#[cfg(test)]
mod tests {
    use super::*;
    use second::{well_formed, Raw};

    #[test]
    fn bad_ones_are_not_well_formed() {
        let mut random = Random::new(2);
        let bad = [
            bad_count, bad_sign, bad_month, bad_unused, bad_gap, bad_expiry, no_expiry,
        ];
        for _ in 0..2_000 {
            for make in bad {
                let words = make(&mut random);
                assert!(!well_formed(&Raw::from_words(&words)), "{words:?}");
            }
        }
    }

    /// The expiry is then the one thing that is wrong.
    #[test]
    fn bad_expiries_are_all_that_is_wrong() {
        let mut random = Random::new(9);
        for _ in 0..2_000 {
            for make in [bad_expiry, no_expiry] {
                let mut words = make(&mut random);
                words[EXPIRY] = month_start(last_leap(&words)) + 1;
                assert!(well_formed(&Raw::from_words(&words)), "{words:?}");
            }
        }
    }
}
