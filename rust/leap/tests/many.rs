//! Many questions in one call are answered as each alone.

use leap::ffi::{self, Words};
use leap::{Leap, Mjd, Refusal, Schedule, Sign, TaiMicros, UtcMicros, UtsNanos};

/// Lists with leaps of both signs, with none, and one that ends at month 2400.
const LISTS: [&[u8]; 6] = [
    b"6+5?",
    b"6-5?",
    b"1+1-1-1+1?",
    b"5?",
    b"999+999-402?",
    b"6+6+12+12+12+12+12+12+12+18+12+12+24+30+24+12+18+12+12+5?",
];

fn lists() -> Vec<Schedule> {
    let read = |list: &[u8]| Schedule::from_text(list).expect("the list reads");
    LISTS.into_iter().map(read).collect()
}

/// `6+5?` and `6-5?` with other expiries: the day after the leap's month starts, the
/// last day of a month, the second, and one in between.
fn within_a_month() -> Vec<Schedule> {
    let expiries = [41_500, 41_529, 41_531, 41_651, 41_653, 41_679];
    let with = |expiry| {
        lists().into_iter().take(2).map(move |list| {
            let leaps: Vec<Leap> = list.leaps().expect("it is well formed").collect();
            Schedule::new(&leaps, Mjd(expiry))
        })
    };
    expiries.into_iter().flat_map(with).collect()
}

/// `6+5?` with one word changed, so that it isn't well formed.
fn malformed() -> Vec<Schedule> {
    let changes = [
        (1, 2),
        (0, 65_536 + 6),
        (512, 257),
        (512, 0),
        (513, 11),
        (513, 41_499),
        (513, 71_937),
        (513, 114_367),
        (511, 1),
    ];
    let changed = |(at, value): (usize, u32)| {
        let mut words = *lists()[0].words();
        words[at] = value;
        Schedule::from_words(words)
    };
    changes.into_iter().map(changed).collect()
}

/// Days about the leaps and ends of the lists, and far ones.
fn days() -> Vec<Mjd> {
    // Months 0 to 7, 11, 270, 275, 999, 1998 and 2400, and 28 December 1972.
    let starts = [
        41_317, 41_348, 41_377, 41_408, 41_438, 41_469, 41_499, 41_530, 41_652, 41_679, 49_534,
        49_687, 71_723, 102_129, 114_366,
    ];
    let near = |day: u64| [day - 2, day - 1, day, day + 1];
    let far = [0, 1 << 32, 1 << 63, u64::MAX];
    let all = starts.into_iter().flat_map(near).chain(far);
    all.map(Mjd).collect()
}

/// Seconds of a day at which something changes, in that many parts each.
fn times(parts: u64) -> Vec<u64> {
    let seconds = [0, 85_399, 85_400, 85_401, 86_398, 86_399, 86_400, 86_401];
    let near = |t: u64| [t.saturating_sub(1), t, t + 1];
    let about = seconds.into_iter().flat_map(|s| near(s * parts));
    about.chain([u64::MAX]).collect()
}

/// Each of the days with each of the times.
fn pairs<T: Copy>(times: Vec<u64>, unit: fn(u64) -> T) -> Vec<(Mjd, T)> {
    let of_day = |day| times.iter().map(move |&time| (day, unit(time)));
    days().into_iter().flat_map(of_day).collect()
}

fn instants() -> Vec<(Mjd, UtcMicros)> {
    pairs(times(1_000_000), UtcMicros)
}

fn smoothed() -> Vec<(Mjd, UtsNanos)> {
    pairs(times(1_000_000_000), UtsNanos)
}

/// TAI about the start of each day, with the DTAI that it may have.
fn tai() -> Vec<TaiMicros> {
    let mut all = vec![TaiMicros(0), TaiMicros(u64::MAX)];
    for Mjd(mjd) in days() {
        let day = mjd.wrapping_sub(41_317).wrapping_mul(86_400_000_000);
        for dtai in 8..=30 {
            let start = day.wrapping_add(dtai * 1_000_000);
            all.extend([start.wrapping_sub(1), start, start.wrapping_add(1)].map(TaiMicros));
        }
    }
    all
}

/// All five questions in one call each, and one by one.
fn assert_as_single(s: &Schedule) {
    let (days, instants, smoothed, tai) = (days(), instants(), smoothed(), tai());
    let single: Vec<_> = days.iter().map(|&d| s.dtai(d)).collect();
    assert_eq!(s.dtai_many(&days), single, "{s:?}");
    let single: Vec<_> = instants.iter().map(|&(d, t)| s.utc_to_tai(d, t)).collect();
    assert_eq!(s.utc_to_tai_many(&instants), single, "{s:?}");
    let single: Vec<_> = tai.iter().map(|&t| s.tai_to_utc(t)).collect();
    assert_eq!(s.tai_to_utc_many(&tai), single, "{s:?}");
    let single: Vec<_> = instants.iter().map(|&(d, t)| s.utc_to_uts(d, t)).collect();
    assert_eq!(s.utc_to_uts_many(&instants), single, "{s:?}");
    let single: Vec<_> = smoothed.iter().map(|&(d, t)| s.uts_to_utc(d, t)).collect();
    assert_eq!(s.uts_to_utc_many(&smoothed), single, "{s:?}");
}

#[test]
fn answers_and_refusals_are_those_of_single_questions() {
    lists().iter().for_each(assert_as_single);
    within_a_month().iter().for_each(assert_as_single);
    // The questions are such that each of the refusals is met.
    let answers = lists()[0].utc_to_uts_many(&instants());
    assert!(answers.iter().any(Result::is_ok));
    for refusal in [Refusal::Before1972, Refusal::NoInstant, Refusal::NotKnown] {
        assert!(answers.contains(&Err(refusal)), "{refusal}");
    }
}

#[test]
fn with_256_leaps() {
    let leap = |month| Leap {
        month,
        sign: Sign::Negative,
    };
    let leaps: Vec<Leap> = (1..=256).map(leap).collect();
    // Month 257 is June 1993, and month 256 May, MJD 49108.
    let list = Schedule::new(&leaps, Mjd(49_139));
    assert_eq!(list.check(), Ok(()));
    assert_as_single(&list);
    // 256 leaps down from 10.
    let last = [Mjd(49_107), Mjd(49_108)];
    assert_eq!(list.dtai_many(&last), [Ok(-245), Ok(-246)]);
    // 86,400 x 7,791 - 246 seconds, and a microsecond before.
    let start = 673_142_154_000_000;
    assert_eq!(
        list.tai_to_utc_many(&[TaiMicros(start - 1), TaiMicros(start)]),
        [
            Ok((last[0], UtcMicros(86_398_999_999))),
            Ok((last[1], UtcMicros(0)))
        ]
    );
}

#[test]
fn malformed_schedules_refuse_every_question() {
    for s in malformed() {
        let no = Refusal::NotWellFormed;
        assert_as_single(&s);
        assert_eq!(s.dtai_many(&days()), vec![Err(no); days().len()]);
        assert_eq!(s.tai_to_utc_many(&tai()), vec![Err(no); tai().len()]);
        let all = instants();
        assert_eq!(s.utc_to_tai_many(&all), vec![Err(no); all.len()]);
        assert_eq!(s.utc_to_uts_many(&all), vec![Err(no); all.len()]);
        let all = smoothed();
        assert_eq!(s.uts_to_utc_many(&all), vec![Err(no); all.len()]);
    }
}

#[test]
fn no_question_no_answer() {
    for s in lists().into_iter().chain(malformed()) {
        assert_eq!(s.dtai_many(&[]), []);
        assert_eq!(s.utc_to_tai_many(&[]), []);
        assert_eq!(s.tai_to_utc_many(&[]), []);
        assert_eq!(s.utc_to_uts_many(&[]), []);
        assert_eq!(s.uts_to_utc_many(&[]), []);
    }
}

/// Four lengths: one of them short, each in turn, or all the same.
fn lengths() -> Vec<[usize; 4]> {
    let turn = |short: usize| {
        (0..4).map(move |at| std::array::from_fn(|i| if i == at { short } else { 3 + i }))
    };
    [0, 1, 2]
        .into_iter()
        .flat_map(turn)
        .chain([[3; 4]])
        .collect()
}

const NUMBER: u8 = 77;
const VALUE: u64 = 0x7777_7777_7777_7777;

/// Elements below the count are set as expected, and those beyond stay.
fn assert_set<T: Copy + PartialEq + std::fmt::Debug>(
    got: &[T],
    expected: &[T],
    count: usize,
    stay: T,
) {
    assert_eq!(got[..count], expected[..count]);
    assert!(got[count..].iter().all(|&x| x == stay), "{got:?}");
}

#[test]
fn slices_of_days_may_differ_in_length() {
    let s = Schedule::from_text(b"6+5?").expect("a list");
    let mjd = [41_498, 41_316, 41_499, 41_652, 41_317, 0];
    for [a, b, c, _] in lengths() {
        let (mut numbers, mut dtai) = (vec![NUMBER; b], vec![-77; c]);
        let count = a.min(b).min(c);
        let said = ffi::dtai_many(s.words(), &mjd[..a], &mut numbers, &mut dtai);
        assert_eq!(said, count as u64);
        assert_set(&numbers, &[0, 8, 0, 10, 0, 8], count, NUMBER);
        assert_set(&dtai, &[10, 0, 11, 0, 10, 0], count, -77);
    }
}

#[test]
fn slices_of_tai_may_differ_in_length() {
    let s = Schedule::from_text(b"6+5?").expect("a list");
    let tai = [15_724_810_000_000, 9_999_999, 10_000_000, u64::MAX, 0, 0];
    for [a, b, c, d] in lengths() {
        let mut numbers = vec![NUMBER; b];
        let (mut mjd, mut micros) = (vec![VALUE; c], vec![VALUE; d]);
        let count = a.min(b).min(c).min(d);
        let said = ffi::tai_to_utc_many(s.words(), &tai[..a], &mut numbers, &mut mjd, &mut micros);
        assert_eq!(said, count as u64);
        assert_set(&numbers, &[0, 8, 0, 10, 8, 8], count, NUMBER);
        assert_set(&mjd, &[41_498, 0, 41_317, 0, 0, 0], count, VALUE);
        assert_set(&micros, &[86_400_000_000, 0, 0, 0, 0, 0], count, VALUE);
    }
}

type Single = fn(&Words, u64, u64, &mut u64) -> u8;
type Many = fn(&Words, &[u64], &[u64], &mut [u8], &mut [u64]) -> u64;

#[test]
fn slices_of_instants_may_differ_in_length() {
    let calls: [(Single, Many); 3] = [
        (ffi::utc_to_tai, ffi::utc_to_tai_many),
        (ffi::utc_to_uts, ffi::utc_to_uts_many),
        (ffi::uts_to_utc, ffi::uts_to_utc_many),
    ];
    let s = Schedule::from_text(b"6+5?").expect("a list");
    let mjd = [41_498, 41_316, 41_317, 41_652, 41_317, 41_499];
    let times = [86_400_000_000, 0, u64::MAX, 0, 1_000, 2_000];
    for (single, many) in calls {
        let mut expected = [VALUE; 6];
        let no: [u8; 6] =
            std::array::from_fn(|i| single(s.words(), mjd[i], times[i], &mut expected[i]));
        assert_eq!(no, [0, 8, 9, 10, 0, 0]);
        for [a, b, c, d] in lengths() {
            let (mut numbers, mut values) = (vec![NUMBER; c], vec![VALUE; d]);
            let count = a.min(b).min(c).min(d);
            let said = many(s.words(), &mjd[..a], &times[..b], &mut numbers, &mut values);
            assert_eq!(said, count as u64);
            assert_set(&numbers, &no, count, NUMBER);
            assert_set(&values, &expected, count, VALUE);
        }
    }
}
