//! Two lists: the wrapper on the example of request 7/14, and on answers worked
//! by hand from the papers. An expiry is its month's first day: months 5, 6, 11, 17
//! and 23 start on MJD 41469, 41499, 41652, 41834 and 42017.

use leap::{Leap, Mjd, Refusal, Schedule, Sign};

const HEADER: &str = include_str!("../../../include/leap.h");

fn compared(first: &str, second: &str) -> Result<String, Refusal> {
    leap::compare(first.as_bytes(), second.as_bytes())
}

fn parts(first: &str, second: &str, lines: &str) {
    assert_eq!(
        compared(first, second).as_deref(),
        Ok(lines),
        "{first} {second}"
    );
}

#[test]
fn lists_are_compared() {
    let lines = "12 + 0\n18 ? +\n= 41834 42017\ncontradict\n";
    parts("6+6+5?", "6+12+5?", lines);
    let lines = "12 0 +\n18 + ?\n= 42017 41834\ncontradict\n";
    parts("6+12+5?", "6+6+5?", lines);
    parts("6?", "6+5?", "6 ? +\n= 41499 41652\nextends 2\n");
    parts("6+5?", "6?", "6 + ?\n= 41652 41499\nextends 1\n");
    parts("11?", "6+5?", "6 0 +\ncontradict\n");
    parts("6+5?", "6-5?", "6 + -\ncontradict\n");
    parts("5?", "6?", "= 41469 41499\nextends 2\n");
    parts("6+5?", "6+5?", "same\n");
}

#[test]
fn the_longest_comparison_fits() {
    // Leaps at 999, 1001, .., 1509 and at 998, 1000, .., 1508, 256 each: 510
    // lines of 9 bytes, 2 of 8, the expiries and the last line.
    let first = format!("999+{}890?", "2+".repeat(255));
    let second = format!("998+{}892?", "2+".repeat(255));
    let comparison = compared(&first, &second).expect("both lists read");
    assert_eq!(comparison.lines().count(), 514);
    assert!(comparison.starts_with("998 0 +\n999 + 0\n1000 0 +\n"));
    // Months 2399 and 2400: 31 days before MJD 114366, and that day.
    assert!(comparison.ends_with("\n1509 + 0\n= 114335 114366\ncontradict\n"));
    assert_eq!(comparison.len(), 510 * 9 + 2 * 8 + 16 + 11);
    assert_eq!(comparison.len(), 4_633);
    assert!(HEADER.contains("LEAP_COMPARISON_ROOM = 4633,"));
    let (first, second) = (first.as_bytes(), second.as_bytes());
    assert_eq!(leap::longer(first, second), Err(Refusal::Contradiction));
}

#[test]
fn lists_that_do_not_read_refuse() {
    let many = format!("{}1?", "1+".repeat(257));
    let refused = [
        ("", Refusal::EndsEarly),
        ("x", Refusal::NotAllowed),
        ("06+5?", Refusal::BadGap),
        ("999+999+403?", Refusal::PastLastMonth),
        (many.as_str(), Refusal::TooManyLeaps),
        ("5?\n", Refusal::AfterEnd),
    ];
    let longer = |first: &str, second: &str| {
        leap::longer(first.as_bytes(), second.as_bytes()).map(<[u8]>::to_vec)
    };
    for (bad, refusal) in refused {
        assert_eq!(compared(bad, "5?"), Err(refusal));
        assert_eq!(compared("5?", bad), Err(refusal));
        assert_eq!(longer(bad, "5?"), Err(refusal));
        assert_eq!(longer("5?", bad), Err(refusal));
        // The first list's refusal, whatever the second's is.
        for (other, _) in refused {
            assert_eq!(compared(bad, other), Err(refusal));
            assert_eq!(longer(bad, other), Err(refusal));
        }
    }
}

#[test]
fn the_longer_list_is_the_given_slice() {
    /// Whether the first list's own bytes are handed back.
    fn first_of(first: &[u8], second: &[u8]) -> bool {
        let part = leap::longer(first, second).expect("they do not contradict");
        let is = |list: &[u8]| (part.as_ptr(), part.len()) == (list.as_ptr(), list.len());
        assert!(is(first) || is(second));
        is(first)
    }
    let (shorter, longer) = (b"6?".to_vec(), b"6+5?".to_vec());
    assert!(first_of(&longer, &shorter));
    assert!(!first_of(&shorter, &longer));
    // Another place with the same list in it.
    let copy = longer.clone();
    assert!(first_of(&longer, &copy));
    assert!(first_of(&copy, &longer));
    assert!(first_of(&longer, &longer));
}

/// What is handed back lives as long as the lists, not as the call.
#[test]
fn the_longer_list_outlives_the_call() {
    fn choose<'a>(lists: &[&'a [u8]]) -> &'a [u8] {
        lists.iter().fold(&b"1?"[..], |longest, list| {
            leap::longer(longest, list).expect("none contradicts")
        })
    }
    let stored = b"6+5?6?6+6-1?".to_vec();
    let chosen = choose(&[&stored[..4], &stored[4..6], &stored[6..]]);
    assert_eq!(chosen, b"6+6-1?");
    assert_eq!(chosen.as_ptr(), stored[6..].as_ptr());
}

#[test]
fn a_refusal_hands_back_the_empty_start_of_the_first() {
    for (first, second, number) in [
        (&b"06+5?"[..], &b"5?"[..], 3),
        (b"5?", b"06+5?", 3),
        (b"5?", b"", 1),
        (b"11?", b"6+5?", 16),
    ] {
        let mut part = second;
        assert_eq!(leap::ffi::longer_text(first, second, &mut part), number);
        assert_eq!((part.as_ptr(), part.len()), (first.as_ptr(), 0));
    }
}

#[test]
fn a_short_room_stays() {
    let whole = b"6 ? +\n= 41499 41652\nextends 2\n";
    for room in 0..whole.len() {
        let (mut out, mut written) = (vec![7; room], 99);
        let number = leap::ffi::compare_text(b"6?", b"6+5?", &mut out, &mut written);
        assert_eq!((number, written), (7, 0));
        assert_eq!(out, vec![7; room]);
    }
    let (mut out, mut written) = ([7; 40], 99);
    let number = leap::ffi::compare_text(b"6?", b"6+5?", &mut out, &mut written);
    assert_eq!((number, written), (0, whole.len() as u64));
    assert!(out.starts_with(whole) && out[whole.len()..].iter().all(|&b| b == 7));
}

#[test]
fn extension() {
    let extends = |longer: &str, shorter: &str| {
        let read = |list: &str| Schedule::from_text(list.as_bytes()).expect("the list reads");
        read(longer).extends(&read(shorter))
    };
    for (longer, shorter) in [
        ("6+5?", "6+5?"),
        ("6+6?", "6+5?"),
        ("6+5-1?", "6+5?"),
        ("6+5?", "6?"),
        ("6+5?", "1?"),
    ] {
        assert_eq!(extends(longer, shorter), Ok(true), "{longer} {shorter}");
    }
    for (longer, shorter) in [
        ("6+5?", "6+6?"),
        ("6+5?", "6+5-1?"),
        ("6+4-2?", "6+5?"),
        ("6-5?", "6+5?"),
        ("11?", "6+5?"),
        ("6+5?", "11?"),
        ("6+5?", "7?"),
    ] {
        assert_eq!(extends(longer, shorter), Ok(false), "{longer} {shorter}");
    }
}

/// Lists that expire within a month, which no text list does.
#[test]
fn extension_to_the_day() {
    let to_day = |months: &[u32], expiry| {
        let leap = |&month: &u32| Leap {
            month,
            sign: Sign::Positive,
        };
        let leaps: Vec<Leap> = months.iter().map(leap).collect();
        Schedule::new(&leaps, Mjd(expiry))
    };
    // 28 December 1972, in month 11.
    let stored = to_day(&[6], 41_679);
    for (longer, yes) in [
        (to_day(&[6], 41_678), false),
        (to_day(&[6], 41_679), true),
        (to_day(&[6], 41_680), true),
        // Of month 11 it knows that there is no leap, of month 12 nothing.
        (to_day(&[6, 11], 41_700), false),
        (to_day(&[6, 12], 41_700), true),
        (to_day(&[], 41_700), false),
    ] {
        assert_eq!(longer.extends(&stored), Ok(yes), "{longer:?}");
    }
    // Month 6 starts on MJD 41499: a list that expires on that day does not know it.
    for (shorter, yes) in [
        (to_day(&[], 41_498), true),
        (to_day(&[], 41_499), true),
        (to_day(&[], 41_500), false),
        (to_day(&[6], 41_500), true),
    ] {
        assert_eq!(stored.extends(&shorter), Ok(yes), "{shorter:?}");
    }
}
