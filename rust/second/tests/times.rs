mod common;

use common::{leaps_of, list, longer, month_mjd, month_of, raw, to_month, Rng};
use second::*;

const DAY: u64 = 86_400_000_000;

/// The leap at the end of a day and its DTAI, by 01's words.
fn at_day(s: &Raw, mjd: u64) -> (i32, i64) {
    let mut dtai = 10;
    let mut leap = 0;
    for &(month, negative) in leaps_of(s) {
        let step = if negative == 1 { -1 } else { 1 };
        let first = month_mjd(month);
        if first <= mjd {
            dtai += step;
        } else if first == mjd + 1 {
            leap = i64::from(step);
        }
    }
    (dtai, leap)
}

/// Z, the last day before the expiry.
fn last_day(s: &Raw) -> u64 {
    u64::from(s.expiry_mjd) - 1
}

/// Whether Z has its cut-offs, which is so before the first of a month.
fn is_cut_off(s: &Raw) -> bool {
    let expiry = s.expiry_mjd.into();
    month_mjd(month_of(expiry)) == expiry
}

/// A date of interest: near an end, near a leap, or anywhere.
fn some_mjd(rng: &mut Rng, s: &Raw) -> u64 {
    let z = last_day(s);
    match rng.range(0, 9) {
        0 => rng.range(41_315, 41_318),
        1 | 2 => z,
        3 => rng.range(z - 1, z + 2),
        4 => rng.pick(&[
            0,
            1,
            u64::MAX,
            u64::MAX - 41_317,
            1 << 32,
            (1 << 32) + 41_400,
        ]),
        5 => rng.range(114_364, 114_367),
        6..=8 if s.count > 0 => {
            let leap = rng.pick(leaps_of(s)).0;
            month_mjd(leap) - rng.range(0, 2)
        }
        _ => rng.range(41_317, z),
    }
}

fn some_micros(rng: &mut Rng) -> u64 {
    let edge = rng.pick(&[
        1_000,
        85_398_000_000,
        85_399_000_000,
        85_400_000_000,
        85_401_000_000,
        86_399_000_000,
        86_400_000_000,
        86_401_000_000,
    ]);
    match rng.range(0, 5) {
        0 => rng.range(0, DAY),
        1 => rng.range(85_390_000_000, 86_401_000_001),
        2 => rng.pick(&[0, u64::MAX, u64::MAX / 1000, 1 << 63]),
        _ => rng.range(edge - 2, edge + 2),
    }
}

fn some_nanos(rng: &mut Rng) -> u64 {
    let edge = rng.pick(&[
        10_000,
        85_398_000_000_000,
        85_399_000_000_000,
        85_400_000_000_000,
        85_401_000_000_000,
        86_399_000_000_000,
        86_400_000_000_000,
    ]);
    match rng.range(0, 5) {
        0 => rng.range(0, 86_400_000_000_000),
        1 => rng.range(85_390_000_000_000, 86_400_000_000_001),
        2 => rng.pick(&[0, u64::MAX, u64::MAX / 1000, 1 << 63]),
        _ => rng.range(edge - 2_002, edge + 2_002),
    }
}

fn some_tai(rng: &mut Rng, s: &Raw) -> u64 {
    match rng.range(0, 3) {
        0 => rng.pick(&[0, 9_999_999, 10_000_000, 10_000_001, u64::MAX, 1 << 63]),
        1 => rng.range(9_999_000, 10_001_000 + DAY * (last_day(s) - 41_317)),
        _ => {
            let mjd = some_mjd(rng, s).clamp(41_317, 114_367);
            let t = some_micros(rng).min(2 * DAY);
            let dtai = i64::from(at_day(s, mjd.min(last_day(s))).0);
            let tai = (DAY * (mjd - 41_317) + t) as i64 + 1_000_000 * dtai;
            (tai.max(0) as u64).saturating_add(rng.range(0, 2))
        }
    }
}

#[test]
fn agrees_with_01s_formulas() {
    let mut rng = Rng::new(10);
    let mut numbers = [[0u32; 12]; 5];
    for _ in 0..400 {
        let s = list(&mut rng);
        let p = Prepared::new(&s).unwrap();
        let z = last_day(&s);
        // No day, where Z is known whole.
        let cut_day = if is_cut_off(&s) { z } else { u64::MAX };
        for _ in 0..60 {
            let mjd = some_mjd(&mut rng, &s);
            let (dtai, leap) = at_day(&s, mjd);
            let length = (86_400 + leap) as u64 * 1_000_000;

            let want = if mjd < 41_317 {
                (8, 0)
            } else if mjd > z {
                (10, 0)
            } else {
                (0, dtai)
            };
            assert_eq!(p.dtai(mjd), want);
            numbers[0][want.0 as usize] += 1;

            let t = some_micros(&mut rng);
            let refusal = |cut: u64| {
                if mjd < 41_317 {
                    8
                } else if t >= 86_401_000_000 {
                    9
                } else if mjd > z || mjd == cut_day && t >= cut {
                    10
                } else if mjd != cut_day && t >= length {
                    9
                } else {
                    0
                }
            };
            let want = match refusal(86_399_000_000) {
                0 => {
                    let tai = (DAY * (mjd - 41_317) + t) as i64 + 1_000_000 * i64::from(dtai);
                    (0, tai as u64)
                }
                n => (n, 0),
            };
            assert_eq!(p.utc_to_tai(mjd, t), want);
            numbers[1][want.0 as usize] += 1;
            if want.0 == 0 {
                assert_eq!(p.tai_to_utc(want.1), (0, mjd, t));
            }

            let want = match refusal(85_399_000_000) {
                0 => {
                    let left = (length - t) as i64;
                    let mut uts = 1_000 * t as i64;
                    if left < 1_000_000_000 {
                        uts -= leap * (1_000_000_000 - left);
                    }
                    (0, uts as u64)
                }
                n => (n, 0),
            };
            assert_eq!(p.utc_to_uts(mjd, t), want);
            numbers[3][want.0 as usize] += 1;
            if want.0 == 0 {
                assert_eq!(p.uts_to_utc(mjd, want.1), (0, t));
                assert!(want.1.abs_diff(1_000 * t) < 1_000_000_000);
            }

            let n = some_nanos(&mut rng);
            let (number, back) = p.uts_to_utc(mjd, n);
            let want = if mjd < 41_317 {
                8
            } else if n >= 86_400_000_000_000 {
                9
            } else if mjd > z || mjd == cut_day && n >= 85_399_000_000_000 {
                10
            } else {
                0
            };
            assert_eq!(number, want);
            numbers[4][number as usize] += 1;
            if number == 0 {
                assert!(p.utc_to_uts(mjd, back).1 <= n);
                let (number, next) = p.utc_to_uts(mjd, back + 1);
                match number {
                    0 => assert!(next > n),
                    9 => assert_eq!(back + 1, length),
                    _ => assert_eq!((mjd, back), (cut_day, 85_398_999_999)),
                }
            } else {
                assert_eq!(back, 0);
            }

            let tai = some_tai(&mut rng, &s);
            let (number, day, t) = p.tai_to_utc(tai);
            let z_dtai = i64::from(at_day(&s, z).0);
            let z_end = if cut_day == z { 86_399_000_000 } else { DAY };
            let end = (DAY * (z - 41_317) + z_end) as i64 + 1_000_000 * z_dtai;
            let want = if tai < 10_000_000 {
                8
            } else if i128::from(tai) >= i128::from(end) {
                10
            } else {
                0
            };
            assert_eq!(number, want);
            numbers[2][number as usize] += 1;
            if number == 0 {
                assert_eq!(p.utc_to_tai(day, t), (0, tai));
            } else {
                assert_eq!((day, t), (0, 0));
            }
        }
    }
    let expected: [&[usize]; 5] = [
        &[0, 8, 10],
        &[0, 8, 9, 10],
        &[0, 8, 10],
        &[0, 8, 9, 10],
        &[0, 8, 9, 10],
    ];
    for (counts, wanted) in numbers.iter().zip(expected) {
        for (number, &count) in counts.iter().enumerate() {
            assert_eq!(count > 0, wanted.contains(&number), "{numbers:?}");
        }
    }
}

/// Every day of some lists, against a day-by-day count.
#[test]
fn day_by_day() {
    let mut rng = Rng::new(11);
    for _ in 0..12 {
        let s = list(&mut rng);
        let p = Prepared::new(&s).unwrap();
        let z = last_day(&s);
        let firsts: std::collections::HashMap<u64, i32> = leaps_of(&s)
            .iter()
            .map(|&(m, neg)| (month_mjd(m), if neg == 1 { -1 } else { 1 }))
            .collect();
        let mut dtai = 10;
        for mjd in 41_317..=z {
            dtai += firsts.get(&mjd).unwrap_or(&0);
            assert_eq!(p.dtai(mjd), (0, dtai));
            let tai = ((DAY * (mjd - 41_317)) as i64 + 1_000_000 * i64::from(dtai)) as u64;
            assert_eq!(p.utc_to_tai(mjd, 0), (0, tai));
            assert_eq!(p.tai_to_utc(tai), (0, mjd, 0));
            if mjd < z || !is_cut_off(&s) {
                let leap = *firsts.get(&(mjd + 1)).unwrap_or(&0);
                let last = (DAY as i64 + 1_000_000 * i64::from(leap) - 1) as u64;
                assert_eq!(p.utc_to_tai(mjd, last), (0, tai + last));
                assert_eq!(p.tai_to_utc(tai + last), (0, mjd, last));
                assert_eq!(p.utc_to_tai(mjd, last + 1), (9, 0));
                assert_eq!(p.utc_to_uts(mjd, last + 1), (9, 0));
            }
        }
        assert_eq!(p.dtai(z + 1), (10, 0));
    }
}

#[test]
fn refusal_orders() {
    let blank = Raw::blank();
    let mut bad = to_month(&[(6, 0)], 11);
    bad.words[200] = (0, 1);
    for s in [&blank, &bad] {
        for mjd in [0, 41_316, 41_317, u64::MAX] {
            assert_eq!(dtai(s, mjd), (11, 0));
            for t in [0, DAY, u64::MAX] {
                assert_eq!(utc_to_tai(s, mjd, t), (11, 0));
                assert_eq!(utc_to_uts(s, mjd, t), (11, 0));
                assert_eq!(uts_to_utc(s, mjd, t), (11, 0));
            }
        }
        assert_eq!(tai_to_utc(s, 0), (11, 0, 0));
        assert_eq!(tai_to_utc(s, u64::MAX), (11, 0, 0));
    }
    let s = to_month(&[(6, 0)], 11); // leap day 41498, Z is 1972-11-30, MJD 41651
    let too_much = 86_401_000_000;
    for ask in [utc_to_tai, utc_to_uts] {
        assert_eq!(ask(&s, 41_316, 0), (8, 0));
        assert_eq!(ask(&s, 41_316, u64::MAX), (8, 0));
        assert_eq!(ask(&s, 41_317, too_much), (9, 0));
        assert_eq!(ask(&s, 41_317, DAY), (9, 0));
        assert_eq!(ask(&s, 41_498, too_much - 1).0, 0);
        assert_eq!(ask(&s, 41_498, too_much), (9, 0));
        assert_eq!(ask(&s, 41_651, too_much), (9, 0));
        assert_eq!(ask(&s, 41_651, too_much - 1), (10, 0));
        assert_eq!(ask(&s, 41_651, 86_399_000_000), (10, 0));
        assert_eq!(ask(&s, 41_651, 85_398_999_999).0, 0);
        assert_eq!(ask(&s, 41_652, 0), (10, 0));
        assert_eq!(ask(&s, 41_652, too_much - 1), (10, 0));
        assert_eq!(ask(&s, 41_652, too_much), (9, 0));
        assert_eq!(ask(&s, u64::MAX, u64::MAX), (9, 0));
        assert_eq!(ask(&s, u64::MAX, 0), (10, 0));
    }
    assert_eq!(utc_to_tai(&s, 41_651, 86_398_999_999).0, 0);
    assert_eq!(utc_to_uts(&s, 41_651, 85_399_000_000), (10, 0));
    let uts_day = 86_400_000_000_000;
    assert_eq!(uts_to_utc(&s, 41_316, uts_day), (8, 0));
    assert_eq!(uts_to_utc(&s, 41_317, uts_day), (9, 0));
    assert_eq!(uts_to_utc(&s, 41_651, uts_day), (9, 0));
    assert_eq!(uts_to_utc(&s, 41_652, uts_day), (9, 0));
    assert_eq!(uts_to_utc(&s, 41_652, uts_day - 1), (10, 0));
    assert_eq!(uts_to_utc(&s, 41_651, 85_399_000_000_000), (10, 0));
    assert_eq!(
        uts_to_utc(&s, 41_651, 85_398_999_999_999),
        (0, 85_398_999_999)
    );
    assert_eq!(uts_to_utc(&s, 41_498, uts_day - 1), (0, 86_400_999_999));
    assert_eq!(uts_to_utc(&s, 41_499, uts_day - 1), (0, 86_399_999_999));
    let n = to_month(&[(6, 1)], 11);
    assert_eq!(uts_to_utc(&n, 41_498, uts_day - 1), (0, 86_398_999_999));
    assert_eq!(utc_to_tai(&n, 41_498, 86_399_000_000), (9, 0));
    assert_eq!(dtai(&s, 41_651), (0, 11));
    assert_eq!(dtai(&s, 41_652), (10, 0));
    assert_eq!(dtai(&s, u64::MAX), (10, 0));
    assert_eq!(tai_to_utc(&s, u64::MAX), (10, 0, 0));
    assert_eq!(
        dtai(&to_month(&[(900, 0), (1800, 0)], 2400), 114_365),
        (0, 12)
    );
    assert_eq!(
        dtai(&to_month(&[(900, 0), (1800, 0)], 2400), 114_366),
        (10, 0)
    );
}

/// The last day before an expiry within a month, to its end and beyond.
#[test]
fn a_last_day_that_is_known_whole() {
    let leap = [(6, 0)];
    let at = |day: u64, t: u64, dtai: u64| DAY * (day - 41_317) + t + 1_000_000 * dtai;
    // 30 November 1972, or the second day of July, or the last day of a month: Z is
    // the day before.
    for (expiry, dtai) in [(41_650, 11), (41_500, 11), (41_651, 11), (41_498, 10)] {
        let s = if dtai == 11 {
            raw(&leap, expiry)
        } else {
            raw(&[], expiry)
        };
        let z = u64::from(expiry) - 1;
        assert_eq!(second::dtai(&s, z), (0, dtai as i32));
        assert_eq!(second::dtai(&s, z + 1), (10, 0));
        for t in [85_399_000_000, 86_399_000_000, DAY - 1] {
            assert_eq!(utc_to_tai(&s, z, t), (0, at(z, t, dtai)));
            assert_eq!(tai_to_utc(&s, at(z, t, dtai)), (0, z, t));
            assert_eq!(utc_to_uts(&s, z, t), (0, 1_000 * t));
            assert_eq!(uts_to_utc(&s, z, 1_000 * t), (0, t));
            assert_eq!(uts_to_utc(&s, z, 1_000 * t + 999), (0, t));
        }
        for t in [DAY, DAY + 999_999, DAY + 1_000_000, u64::MAX] {
            assert_eq!(utc_to_tai(&s, z, t), (9, 0));
            assert_eq!(utc_to_uts(&s, z, t), (9, 0));
            assert_eq!(uts_to_utc(&s, z, t.saturating_mul(1_000)), (9, 0));
        }
        assert_eq!(tai_to_utc(&s, at(z, DAY, dtai)), (10, 0, 0));
        assert_eq!(tai_to_utc(&s, at(z, DAY, dtai) + 1), (10, 0, 0));
        assert_eq!(utc_to_tai(&s, z + 1, 0), (10, 0));
        assert_eq!(utc_to_uts(&s, z + 1, DAY), (10, 0));
        assert_eq!(uts_to_utc(&s, z + 1, 0), (10, 0));
    }
    // Its stretches end with Z. Days 182 and 362 from 1972 on are 1 July and 28 December.
    let p = Prepared::new(&raw(&leap, 41_679)).unwrap();
    assert_eq!(p.stretches(), [(0, 181, 10), (182, 361, 11)]);
    assert_eq!(p.unknown_from(), 362);
    // The day before the leap, smoothed to its end, under a list that expires a day
    // after the leap; and that day as Z under one that expires at it.
    let (known, cut_off) = (raw(&leap, 41_500), raw(&[], 41_499));
    assert_eq!(utc_to_uts(&known, 41_498, DAY), (0, 86_399_001_000_000));
    assert_eq!(utc_to_uts(&cut_off, 41_498, DAY), (10, 0));
    assert_eq!(utc_to_tai(&cut_off, 41_498, DAY - 1), (10, 0));
    // The last day that any list knows whole is the one before the last of 2171.
    let far = raw(&[(999, 0), (1998, 0)], 114_365);
    assert_eq!(utc_to_uts(&far, 114_364, DAY - 1), (0, 86_399_999_999_000));
    assert_eq!(utc_to_uts(&far, 114_365, 0), (10, 0));
    let end = raw(&[(999, 0), (1998, 0)], 114_366);
    assert_eq!(
        utc_to_uts(&end, 114_365, 85_398_999_999),
        (0, 85_398_999_999_000)
    );
    assert_eq!(utc_to_uts(&end, 114_365, 85_399_000_000), (10, 0));
}

#[test]
fn dtai_far_below_zero() {
    let leaps: Vec<(u32, u32)> = (1..=256).map(|m| (m, 1)).collect();
    let s = to_month(&leaps, 257);
    assert_eq!(dtai(&s, month_mjd(256)), (0, -246));
    let (n, tai) = utc_to_tai(&s, month_mjd(256), 0);
    assert_eq!(n, 0);
    assert_eq!(tai_to_utc(&s, tai), (0, month_mjd(256), 0));
    assert_eq!(
        tai_to_utc(&s, tai - 1),
        (0, month_mjd(256) - 1, 86_398_999_999)
    );
}

/// UTS never falls or stands while TAI goes on, within days and across them.
#[test]
fn uts_rises() {
    let mut rng = Rng::new(12);
    for _ in 0..200 {
        let s = list(&mut rng);
        let p = Prepared::new(&s).unwrap();
        let mut instants: Vec<u64> = (0..150).map(|_| some_tai(&mut rng, &s)).collect();
        for &(month, _) in leaps_of(&s).iter().take(30) {
            let (_, midnight) = p.utc_to_tai(month_mjd(month), 0);
            instants.extend(midnight - 3..midnight + 3);
            instants.extend(midnight - 1_000_000_003..midnight - 999_999_997);
            instants.extend(midnight - 1_000_003..midnight - 999_997);
        }
        instants.sort_unstable();
        instants.dedup();
        let mut before = None;
        for tai in instants {
            let (n, mjd, t) = p.tai_to_utc(tai);
            if n != 0 {
                continue;
            }
            let (n, uts) = p.utc_to_uts(mjd, t);
            if n != 0 {
                assert_eq!((n, mjd, is_cut_off(&s)), (10, last_day(&s), true));
                continue;
            }
            assert!(uts < 86_400_000_000_000);
            let now = (mjd, uts);
            assert!(before < Some(now), "{before:?} {now:?}");
            before = Some(now);
        }
    }
}

/// All five answers with their numbers first, as one comparable value.
fn five(p: &Prepared, mjd: u64, t: u64, n: u64, tai: u64) -> [(u8, i128, i128); 5] {
    let (a, dtai) = p.dtai(mjd);
    let (b, to_tai) = p.utc_to_tai(mjd, t);
    let (c, day, micros) = p.tai_to_utc(tai);
    let (d, uts) = p.utc_to_uts(mjd, t);
    let (e, utc) = p.uts_to_utc(mjd, n);
    [
        (a, dtai.into(), 0),
        (b, to_tai.into(), 0),
        (c, day.into(), micros.into()),
        (d, uts.into(), 0),
        (e, utc.into(), 0),
    ]
}

fn keeps_answers(rng: &mut Rng, long: &Raw, short: &Raw) {
    let (l, s) = (Prepared::new(long).unwrap(), Prepared::new(short).unwrap());
    for _ in 0..60 {
        let mjd = some_mjd(rng, short);
        let (t, n) = (some_micros(rng), some_nanos(rng));
        let tai = some_tai(rng, short);
        let pairs = five(&s, mjd, t, n, tai)
            .into_iter()
            .zip(five(&l, mjd, t, n, tai));
        for (under_short, under_long) in pairs {
            match under_short.0 {
                0 | 8 | 9 => assert_eq!(under_short, under_long),
                10 => assert!([0, 9, 10].contains(&under_long.0)),
                other => panic!("{other}"),
            }
        }
    }
}

fn some_date_has_two_dtai(a: &Raw, b: &Raw) -> bool {
    let (pa, pb) = (Prepared::new(a).unwrap(), Prepared::new(b).unwrap());
    (41_317..=last_day(a).min(last_day(b))).any(|mjd| {
        let (x, y) = (pa.dtai(mjd), pb.dtai(mjd));
        assert_eq!((x.0, y.0), (0, 0));
        x.1 != y.1
    })
}

/// 01's demand 3 on random pairs.
#[test]
fn demand_3() {
    let mut rng = Rng::new(13);
    let mut seen = [0; 4];
    for round in 0..3_000 {
        let a = list(&mut rng);
        let b = match round % 4 {
            0 | 1 => {
                let b = longer(&mut rng, &a);
                assert!(well_formed(&b));
                assert_eq!(extends(&b, &a), (0, true));
                b
            }
            2 => list(&mut rng),
            _ => {
                // A longer list with one word changed.
                let mut b = longer(&mut rng, &a);
                if b.count > 0 {
                    let at = rng.range(0, u64::from(b.count) - 1) as usize;
                    if rng.chance(2) {
                        b.words[at].1 ^= 1;
                    } else {
                        b.words[at].0 += 1;
                    }
                }
                b
            }
        };
        if !well_formed(&b) {
            continue;
        }
        let (forth, back) = (extends(&b, &a).1, extends(&a, &b).1);
        // The definition in 10/14's words.
        let by_words = |l: &Raw, s: &Raw| {
            let known = |w: &&(u32, u32)| month_mjd(w.0) < s.expiry_mjd.into();
            let same = leaps_of(l).iter().filter(known).eq(leaps_of(s));
            same && l.expiry_mjd >= s.expiry_mjd
        };
        assert_eq!(forth, by_words(&b, &a));
        assert_eq!(back, by_words(&a, &b));
        assert_eq!(forth && back, a == b);
        if forth {
            keeps_answers(&mut rng, &b, &a);
        }
        if back {
            keeps_answers(&mut rng, &a, &b);
        }
        assert_eq!(!forth && !back, some_date_has_two_dtai(&a, &b));
        seen[usize::from(forth) + 2 * usize::from(back)] += 1;
    }
    assert!(seen.iter().all(|&n| n > 5), "{seen:?}");
}
