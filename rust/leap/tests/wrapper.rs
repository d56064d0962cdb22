//! The wrapper on the figures of 01 and of request 10/14, whose values stand here as
//! the papers have them. An expiry is its month's first day: months 5, 11, 275, 599
//! and 999 start on MJD 41469, 41652, 49687, 59549 and 71723.

use leap::{Leap, Mjd, ReadError, Refusal, Schedule, Sign, TaiMicros, UtcMicros, UtsNanos};

const A: &[u8] = b"6+6+12+12+12+12+12+12+12+18+12+12+24+30+24+12+18+12+12+5?";
const B: [u8; 16] = [
    0x00, 0x11, 0x11, 0x11, 0x12, 0x11, 0x34, 0x31, //
    0x21, 0x12, 0x22, 0x9D, 0x56, 0x52, 0x87, 0xFA,
];
const HEADER: &str = include_str!("../../../include/leap.h");

fn text(list: &[u8]) -> Schedule {
    Schedule::from_text(list).expect("the list reads")
}

fn positive(month: u32) -> Leap {
    Leap {
        month,
        sign: Sign::Positive,
    }
}

/// The schedule without leaps that expires on this day.
fn none(expiry: u64) -> Schedule {
    Schedule::new(&[], Mjd(expiry))
}

fn read_error(refusal: Refusal, place: u64) -> Result<Schedule, ReadError> {
    Err(ReadError { refusal, place })
}

/// The schedule of positive leaps with these gaps that expires on this day.
fn of_gaps(gaps: impl IntoIterator<Item = u32>, expiry: u64) -> Schedule {
    let mut month = 0;
    let leap = |gap| {
        month += gap;
        positive(month)
    };
    let leaps: Vec<Leap> = gaps.into_iter().map(leap).collect();
    Schedule::new(&leaps, Mjd(expiry))
}

#[test]
fn refusals_have_the_header_s_numbers() {
    let named: Vec<(String, u8)> = Refusal::ALL
        .iter()
        .map(|r| (format!("{r:?}").to_lowercase(), r.number()))
        .collect();
    // The first enum of the header has the numbers, the second rooms and counts.
    let numbers = HEADER
        .split("enum {")
        .nth(1)
        .expect("the header has an enum");
    let in_header: Vec<(String, u8)> = numbers
        .lines()
        .filter_map(|line| line.trim().strip_prefix("LEAP_")?.split_once(" = "))
        .filter_map(|(name, rest)| {
            let digits: String = rest.chars().take_while(char::is_ascii_digit).collect();
            // LEAP_OK is 0.
            let number = digits.parse().ok().filter(|&n: &u8| n > 0)?;
            Some((name.replace('_', "").to_lowercase(), number))
        })
        .collect();
    assert_eq!(named, in_header);
    assert_eq!(
        Refusal::ALL.map(Refusal::number),
        [1, 2, 3, 4, 5, 6, 7, 8, 9, 10, 11, 16, 17, 20]
    );
    for refusal in Refusal::ALL {
        assert_eq!(Refusal::from_number(refusal.number()), Some(refusal));
    }
    assert_eq!(Refusal::from_number(0), None);
    for number in (12..=15).chain(18..=19).chain(21..=255) {
        assert_eq!(Refusal::from_number(number), None);
    }
}

#[test]
fn refusals_are_errors_in_plain_words() {
    let error = Schedule::from_text(b"").unwrap_err();
    assert_eq!(error.to_string(), "the list ends early (at place 0)");
    let source = std::error::Error::source(&error).expect("a reading error has a refusal");
    assert_eq!(source.to_string(), "the list ends early");
    assert_eq!(Refusal::NotKnown.to_string(), "expired or not yet known");
}

#[test]
fn p1_to_p9_read() {
    assert_eq!(Schedule::from_text(b"5?"), Ok(none(41_469)));
    assert_eq!(Schedule::from_text(b""), read_error(Refusal::EndsEarly, 0));
    assert_eq!(
        Schedule::from_text(b"06+5?"),
        read_error(Refusal::BadGap, 0)
    );
    assert_eq!(
        Schedule::from_text(b"1000?"),
        read_error(Refusal::BadGap, 3)
    );
    assert_eq!(Schedule::from_text(b"999?"), Ok(none(71_723)));
    assert_eq!(
        Schedule::from_text(b"5?\n"),
        read_error(Refusal::AfterEnd, 2)
    );
    assert_eq!(Schedule::from_nybbles(&[0xF4]), Ok(none(41_469)));
    assert_eq!(
        Schedule::from_nybbles(&[0x0F]),
        Ok(Schedule::new(&[positive(6)], Mjd(41_652)))
    );
    assert_eq!(
        Schedule::from_nybbles(&[0x9D]),
        read_error(Refusal::EndsEarly, 2)
    );
}

#[test]
fn p10_to_p12_smooth() {
    let day = Mjd(41_498);
    let inserted = text(b"6+5?");
    let uts = |t| inserted.utc_to_uts(day, UtcMicros(t));
    assert_eq!(uts(86_400_000_000), Ok(UtsNanos(86_399_001_000_000)));
    assert_eq!(uts(85_401_000_000), Ok(UtsNanos(85_401_000_000_000)));
    assert_eq!(uts(85_402_000_000), Ok(UtsNanos(85_401_999_000_000)));
    let deleted = text(b"6-5?");
    let uts = |t| deleted.utc_to_uts(day, UtcMicros(t));
    assert_eq!(uts(86_398_000_000), Ok(UtsNanos(86_398_999_000_000)));
    assert_eq!(uts(86_399_000_000), Err(Refusal::NoInstant));
    // The greatest UTC not above: a nanosecond less is the microsecond before.
    let utc = |u| inserted.uts_to_utc(day, UtsNanos(u));
    assert_eq!(utc(86_399_001_000_000), Ok(UtcMicros(86_400_000_000)));
    assert_eq!(utc(86_399_000_999_999), Ok(UtcMicros(86_399_999_999)));
}

#[test]
fn list_a() {
    let a = text(A);
    let leaps: Vec<Leap> = a.leaps().expect("A is well formed").collect();
    assert_eq!(leaps.len(), 19);
    assert_eq!(leaps[18], positive(270));
    assert_eq!(a.expiry_mjd(), Ok(Mjd(49_687)));
    // Month 270 is July 1994, MJD 49534.
    assert_eq!(a.dtai(Mjd(49_533)), Ok(28));
    assert_eq!(a.dtai(Mjd(49_534)), Ok(29));
    assert_eq!(
        a.to_nybbles(),
        Ok(vec![
            0x00, 0x11, 0x11, 0x11, 0x12, 0x11, 0x34, 0x31, 0x21, 0x91, 0xF4
        ])
    );
    assert_eq!(a.to_text().map(String::into_bytes), Ok(A.to_vec()));
}

#[test]
fn list_b() {
    let b = Schedule::from_nybbles(&B).expect("B reads");
    let leaps: Vec<Leap> = b.leaps().expect("B is well formed").collect();
    assert_eq!(leaps.len(), 27);
    assert_eq!(leaps[26], positive(540));
    assert_eq!(b.expiry_mjd(), Ok(Mjd(59_549)));
    assert_eq!(b.dtai(Mjd(57_753)), Ok(36));
    assert_eq!(b.dtai(Mjd(57_754)), Ok(37));
    assert_eq!(b.to_nybbles(), Ok(B.to_vec()));
    // Z, the last day before the expiry.
    let z = Mjd(59_548);
    assert_eq!(b.dtai(z), Ok(37));
    assert_eq!(b.dtai(Mjd(59_549)), Err(Refusal::NotKnown));
    assert_eq!(
        b.utc_to_uts(z, UtcMicros(85_399_000_000)),
        Err(Refusal::NotKnown)
    );
    assert_eq!(
        b.utc_to_uts(z, UtcMicros(85_398_999_999)),
        Ok(UtsNanos(85_398_999_999_000))
    );
    // 86,400,000,000 x 18,231 + 85,399,000,000 + 37,000,000
    assert_eq!(
        b.utc_to_tai(z, UtcMicros(85_399_000_000)),
        Ok(TaiMicros(1_575_243_836_000_000))
    );
    assert_eq!(
        b.tai_to_utc(TaiMicros(1_575_243_836_000_000)),
        Ok((z, UtcMicros(85_399_000_000)))
    );
    assert_eq!(
        b.utc_to_tai(z, UtcMicros(86_399_000_000)),
        Err(Refusal::NotKnown)
    );
}

#[test]
fn dtai_below_zero() {
    let list = text(b"1-1-1-1-1-1-1-1-1-1-1-1?");
    assert_eq!(list.leaps().map(Iterator::count), Ok(11));
    // Month 11 is December 1972.
    assert_eq!(list.dtai(Mjd(41_651)), Ok(0));
    assert_eq!(list.dtai(Mjd(41_652)), Ok(-1));
}

#[test]
fn parts_are_checked_by_every_question() {
    let good = Schedule::new(&[positive(6)], Mjd(41_652));
    assert_eq!(good, text(b"6+5?"));
    assert_eq!(good.check(), Ok(()));
    assert_eq!(format!("{good:?}"), "Schedule(6+5?)");

    let mut sign_two = *good.words();
    sign_two[1] = 2;
    let mut month_over_16_bits = *good.words();
    month_over_16_bits[0] = 65_536 + 6;
    let mut count_beyond = *good.words();
    count_beyond[512] = u32::MAX;
    let mut unused_not_blank = *good.words();
    unused_not_blank[511] = 1;
    let mut expiry_month = *good.words();
    expiry_month[513] = 11;
    let words = [
        sign_two,
        month_over_16_bits,
        count_beyond,
        unused_not_blank,
        expiry_month,
        [0; 514],
    ];
    // Months 256, 257 and 258 are May to July 1993.
    let many: Vec<Leap> = (1..=257).map(positive).collect();
    let parts = [
        Schedule::new(&many, Mjd(49_169)),
        Schedule::new(&[positive(6)], Mjd(41_499)),
        Schedule::new(&[positive(6)], Mjd(114_367)),
        Schedule::new(&[positive(6)], Mjd((1 << 32) + 41_652)),
        Schedule::new(&[positive(6)], Mjd(u64::MAX)),
    ];
    let malformed = words.into_iter().map(Schedule::from_words).chain(parts);
    for s in malformed {
        let no = Refusal::NotWellFormed;
        let mut out = [7; 800];
        assert_eq!(s.check(), Err(no));
        assert_eq!(s.leaps().map(Iterator::count), Err(no));
        assert_eq!(s.expiry_mjd(), Err(no));
        assert_eq!(s.to_text(), Err(no));
        assert_eq!(s.to_nybbles(), Err(no));
        assert_eq!(s.write_text(&mut out), Err(no));
        assert_eq!(s.write_nybbles(&mut out), Err(no));
        assert_eq!(out, [7; 800]);
        assert_eq!(s.dtai(Mjd(41_317)), Err(no));
        assert_eq!(s.utc_to_tai(Mjd(41_317), UtcMicros(0)), Err(no));
        assert_eq!(s.tai_to_utc(TaiMicros(10_000_000)), Err(no));
        assert_eq!(s.utc_to_uts(Mjd(41_317), UtcMicros(0)), Err(no));
        assert_eq!(s.uts_to_utc(Mjd(41_317), UtsNanos(0)), Err(no));
        assert_eq!(s.extends(&good), Err(no));
        assert_eq!(good.extends(&s), Err(no));
        assert_eq!(s.extends(&s), Err(no));
    }
    assert_eq!(Schedule::new(&many[..256], Mjd(49_139)).check(), Ok(()));
}

#[test]
fn words_of_any_value_can_be_made() {
    for expiry in [0, 11, 41_317, 65_536, 114_367, 1 << 31, u32::MAX] {
        let schedule = none(expiry.into());
        assert_eq!((schedule.words()[512], schedule.words()[513]), (0, expiry));
    }
    assert_eq!(none(1 << 32).words()[513], u32::MAX);
}

#[test]
fn expiry_to_the_day() {
    // Month 0 starts on 41317, month 1 on 41348. Month 999 has 30 days.
    for (expiry, text) in [
        (41_317, Err(Refusal::NotWellFormed)),
        (41_318, Err(Refusal::NoGap)),
        (41_347, Err(Refusal::NoGap)),
        (41_348, Ok("1?")),
        (41_360, Ok("1?")),
        (71_752, Ok("999?")),
        (71_753, Err(Refusal::NotWellFormed)),
    ] {
        let list = none(expiry);
        assert_eq!(list.to_text(), text.map(str::to_string), "{expiry}");
        assert_eq!(list.to_nybbles().err(), text.err(), "{expiry}");
        let known = if text == Err(Refusal::NotWellFormed) {
            Err(Refusal::NotWellFormed)
        } else {
            Ok(Mjd(expiry))
        };
        assert_eq!(list.expiry_mjd(), known);
    }
    let far = [positive(999), positive(1_998)];
    let end = Schedule::new(&far, Mjd(114_366));
    assert_eq!(end.to_text(), Ok("999+999+402?".to_string()));
    let past = Schedule::new(&far, Mjd(114_367));
    assert_eq!(past.check(), Err(Refusal::NotWellFormed));
}

#[test]
fn the_last_day_before_an_expiry_within_a_month() {
    // 13 February 1972: the day before it is 42 days from 1972 on.
    let list = none(41_360);
    let (z, last, over) = (
        Mjd(41_359),
        UtcMicros(86_399_999_999),
        UtcMicros(86_400_000_000),
    );
    let tai = TaiMicros(86_400_000_000 * 43 - 1 + 10_000_000);
    assert_eq!(list.utc_to_tai(z, last), Ok(tai));
    assert_eq!(list.tai_to_utc(tai), Ok((z, last)));
    assert_eq!(list.utc_to_uts(z, last), Ok(UtsNanos(86_399_999_999_000)));
    assert_eq!(list.uts_to_utc(z, UtsNanos(86_399_999_999_999)), Ok(last));
    assert_eq!(list.utc_to_tai(z, over), Err(Refusal::NoInstant));
    assert_eq!(list.utc_to_uts(z, over), Err(Refusal::NoInstant));
    let end = TaiMicros(tai.0 + 1);
    assert_eq!(list.tai_to_utc(end), Err(Refusal::NotKnown));
    assert_eq!(list.dtai(Mjd(41_360)), Err(Refusal::NotKnown));
    let midnight = UtcMicros(0);
    assert_eq!(
        list.utc_to_tai(Mjd(41_360), midnight),
        Err(Refusal::NotKnown)
    );
}

#[test]
fn lists_are_shown_by_their_text() {
    assert_eq!(format!("{:?}", none(41_469)), "Schedule(5?)");
    assert_eq!(format!("{:?}", none(41_470)), "Schedule(5? and MJD 41470)");
    assert!(format!("{:?}", none(41_318)).ends_with(", 0, 41318])"));
    assert!(format!("{:?}", none(0)).ends_with(", 0, 0])"));
}

#[test]
fn the_longest_lists_fit() {
    // Two bytes a gap and one more from 10 months on: 238 gaps of 10 and 19 of
    // 1 are 257 gaps and 2399 months. Another gap of 10 would pass 2400. Month 2399
    // is December 2171, MJD 114335.
    let longest = of_gaps([10; 238].into_iter().chain([1; 18]), 114_335);
    assert_eq!(longest.to_text().map(|t| t.len()), Ok(752));
    // Two nybbles a gap and two more from 17 months on: 133 gaps of 17 and 124
    // of 1 are 257 gaps and 2385 months. Another gap of 17 would pass 2400. Month
    // 2385 is October 2170, 365 + 92 days before MJD 114366.
    let longest = of_gaps([17; 133].into_iter().chain([1; 123]), 113_909);
    assert_eq!(longest.to_nybbles().map(|n| n.len()), Ok(390));
    assert!(HEADER.contains("LEAP_TEXT_ROOM = 752,"));
    assert!(HEADER.contains("LEAP_NYBBLES_ROOM = 390,"));
}
