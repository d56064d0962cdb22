mod common;

use common::{list, month_mjd, month_of, raw, to_month, Rng};
use second::*;

#[test]
fn blank_and_counts() {
    assert!(!well_formed(&Raw::blank()));
    assert!(well_formed(&to_month(&[], 1)));
    let mut full: Vec<(u32, u32)> = (1..=256).map(|m| (m, m % 2)).collect();
    let mut r = to_month(&full, 257);
    assert!(well_formed(&r));
    for count in [257, 258, 1 << 16, (1 << 16) + 256, 1 << 31, u32::MAX] {
        r.count = count;
        assert!(!well_formed(&r), "{count}");
    }
    r.count = 255;
    assert!(!well_formed(&r)); // the 256th place is unused but filled
    full.truncate(255);
    assert!(well_formed(&to_month(&full, 257)));
}

#[test]
fn gaps() {
    assert!(well_formed(&to_month(&[], 999)));
    assert!(!well_formed(&to_month(&[], 1000)));
    assert!(!well_formed(&to_month(&[], 0)));
    assert!(well_formed(&to_month(&[(1, 0)], 2)));
    assert!(!well_formed(&to_month(&[(0, 0)], 2)));
    assert!(well_formed(&to_month(&[(999, 0)], 1998)));
    assert!(!well_formed(&to_month(&[(1000, 0)], 1998)));
    assert!(!well_formed(&to_month(&[(999, 0)], 1999)));
    assert!(!well_formed(&to_month(&[(6, 0)], 6)));
    assert!(!well_formed(&to_month(&[(6, 0)], 5)));
    assert!(well_formed(&to_month(&[(6, 0), (7, 0)], 8)));
    assert!(!well_formed(&to_month(&[(6, 0), (6, 0)], 8)));
    assert!(!well_formed(&to_month(&[(7, 0), (6, 0)], 8)));
    assert!(well_formed(&to_month(&[(6, 0), (1005, 1)], 1006)));
    assert!(!well_formed(&to_month(&[(6, 0), (1006, 1)], 1007)));
}

#[test]
fn expiry() {
    assert!(well_formed(&to_month(&[(900, 0), (1800, 0)], 2400)));
    assert!(!well_formed(&to_month(&[(900, 0), (1800, 0)], 2401)));
    assert!(!well_formed(&to_month(&[(999, 0), (1998, 0)], 2997)));
    assert!(!well_formed(&raw(&[(6, 0)], u32::MAX)));
    assert!(!well_formed(&raw(&[(6, 0)], (1 << 16) + 41_652)));
    assert!(!well_formed(&raw(&[(6, 0)], (1 << 31) | 41_652)));
}

/// The last leap's month starts on `first`; `last` is the last day of the month 999
/// after it.
fn expiries(leaps: &[(u32, u32)], first: u32, last: u32) {
    for expiry in [0, 1, 41_316, 41_317, first - 1, first, last + 1, last + 2] {
        assert!(!well_formed(&raw(leaps, expiry)), "{leaps:?} {expiry}");
    }
    for expiry in first + 1..=last {
        assert!(well_formed(&raw(leaps, expiry)), "{leaps:?} {expiry}");
    }
}

#[test]
fn expiry_to_the_day() {
    // January 1972, and April 2055: see the figures.
    expiries(&[], 41_317, 71_752);
    // July 1972, and October 2055.
    expiries(&[(6, 1)], 41_499, 71_936);
    // Month 999 and month 1998, July 2138. 2100-01-01 is MJD 88069; 38 years with
    // 9 leap days (2104 to 2136) and 181 days more are 14060.
    expiries(&[(999, 0)], 71_723, 102_129 + 30);
    // Never past MJD 114366, from whatever month.
    expiries(&[(999, 0), (1998, 0)], 102_129, 114_366);
    expiries(&[(999, 0), (1998, 0), (2399, 1)], 114_335, 114_366);
    expiries(
        &[(900, 0), (1800, 0), (2390, 1), (2398, 1)],
        114_305,
        114_366,
    );
    let at_2400 = [(999, 0), (1998, 0), (2400, 0)];
    for expiry in [114_335, 114_366, 114_367, 114_397, 120_000] {
        assert!(!well_formed(&raw(&at_2400, expiry)), "{expiry}");
    }
}

/// Every month number is a day before 1972: words with an expiry month are no list.
#[test]
fn expiry_months() {
    for month in 0..=2400 {
        assert!(!well_formed(&raw(&[], month)));
        assert!(!well_formed(&raw(&[(6, 0)], month)));
        assert!(!well_formed(&raw(&[(6, 0), (month.max(7) - 1, 0)], month)));
    }
}

#[test]
fn months_are_not_cut_to_16_bits() {
    assert!(!well_formed(&to_month(&[((1 << 16) + 6, 0)], 11)));
    assert!(!well_formed(&to_month(&[(6, 0), ((1 << 16) + 7, 0)], 11)));
    assert!(!well_formed(&to_month(&[(u32::MAX, 0)], 11)));
}

#[test]
fn sign_words() {
    for sign in [2, 3, 256, 1 << 16, (1 << 16) + 1, u32::MAX] {
        assert!(!well_formed(&to_month(&[(6, sign)], 11)), "{sign}");
    }
    assert!(well_formed(&to_month(&[(6, 1)], 11)));
}

#[test]
fn unused_places() {
    for place in [1, 2, 100, 255] {
        for value in [(1, 0), (0, 1), (0, 2), (12, 0), (1 << 16, 0), (0, 1 << 16)] {
            let mut r = to_month(&[(6, 0)], 11);
            r.words[place] = value;
            assert!(!well_formed(&r), "{place} {value:?}");
        }
    }
}

#[test]
fn words_go_round() {
    let mut rng = Rng::new(1);
    for _ in 0..200 {
        let mut flat = [0u32; 514];
        for w in &mut flat {
            *w = rng.next() as u32;
        }
        let r = Raw::from_words(&flat);
        assert_eq!(r.words[3], (flat[6], flat[7]));
        assert_eq!((r.count, r.expiry_mjd), (flat[512], flat[513]));
        assert_eq!(r.to_words(), flat);
    }
}

/// The rules of 01 and 10/14 once more, clause by clause.
fn by_clauses(r: &Raw) -> bool {
    if r.count > 256 {
        return false;
    }
    let n = r.count as usize;
    let mut months: Vec<u64> = vec![0];
    months.extend(r.words[..n].iter().map(|w| u64::from(w.0)));
    let rises = months.windows(2).all(|w| w[0] < w[1] && w[1] - w[0] <= 999);
    let signs = r.words.iter().all(|w| w.1 <= 1);
    let rest = r.words[n..].iter().all(|&w| w == (0, 0));
    let (last, expiry) = (months[n], u64::from(r.expiry_mjd));
    // From here on the last month and the expiry have a place in the calendar.
    rises && signs && rest && last <= 2400 && expiry <= 114_366 && {
        let later = expiry > month_mjd(last as u32);
        later && month_of(expiry) <= last as u32 + 999
    }
}

#[test]
fn broken_at_random() {
    let mut rng = Rng::new(2);
    let mut seen = [0, 0];
    for _ in 0..20_000 {
        let mut flat = list(&mut rng).to_words();
        for _ in 0..rng.range(0, 2) {
            let used = 2 * flat[512].min(256) as u64;
            let at = match rng.range(0, 3) {
                0 => rng.range(512, 513),
                1 => rng.range(0, 511),
                _ => rng.range(0, used.min(511)),
            } as usize;
            flat[at] = match rng.range(0, 5) {
                0 => flat[at].wrapping_add(1),
                1 => flat[at].wrapping_sub(1),
                2 => flat[at].wrapping_add(1 << 16),
                3 => rng.range(0, 2) as u32,
                4 if at == 513 => rng.range(41_300, 114_400) as u32,
                _ => rng.range(0, 2500) as u32,
            };
        }
        let r = Raw::from_words(&flat);
        assert_eq!(well_formed(&r), by_clauses(&r));
        seen[usize::from(well_formed(&r))] += 1;
    }
    assert!(seen.iter().all(|&n| n > 1_000), "{seen:?}");
}
