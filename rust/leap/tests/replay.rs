//! The replay of a trace: the wrapper on the example of request 12/14, and on
//! answers worked by hand from the papers.

use leap::{ffi, Leap, Mjd, Replay, Schedule, Sign};

const HEADER: &str = include_str!("../../../include/leap.h");

fn list(text: &[u8]) -> Schedule {
    Schedule::from_text(text).expect("the list reads")
}

fn blank() -> Schedule {
    Schedule::new(&[], Mjd(0))
}

/// What a day's trace prints in pieces of that many bytes.
fn in_pieces(trace: &[u8], size: usize) -> String {
    let mut day = Replay::new();
    let mut printed = Vec::new();
    for piece in trace.chunks(size) {
        day.feed(piece, &mut printed);
    }
    day.end(&mut printed);
    String::from_utf8(printed).expect("what is printed is ASCII")
}

/// Checks what a day's trace prints, in one piece and in small ones.
fn prints(trace: impl AsRef<[u8]>, printed: &str) {
    let trace = trace.as_ref();
    for size in [usize::MAX, 1, 2, 3, 7, 1_000, 4_096, 4_097, 4_098] {
        assert_eq!(in_pieces(trace, size), printed, "in pieces of {size}");
    }
}

#[test]
fn the_example_of_12_14() {
    prints("L 6+5?\nQ 41498 86400000000\n", "41498 86399001000000\n");
    assert_eq!(HEADER.matches("LEAP_REPLAY_ROOM = 22,").count(), 1);
    assert_eq!(HEADER.matches("LEAP_REPLAY_HELD = 4097 ").count(), 1);
}

#[test]
fn lines_that_print() {
    prints("", "");
    prints("Q 41498 0\n", "!11\n");
    prints("L 6+5?\nZ\nQ 41498 0\n", "!11\n");
    prints("L 6+5?\nS\nL 6-5?\nZ\nQ 41498 0\n", "41498 0\n");
    prints("L 6+5?\nQ 41316 0\nQ 41652 0\n", "!8\n!10\n");
    prints("L 6-5?\nQ 41498 86399000000\n", "!9\n");
    prints(
        "L 6+5?\nL \nL  5?\nL 1000?\nQ 41498 0\n",
        "!1\n!2\n!3\n41498 0\n",
    );
    prints("L 5?\r\nL current\n", "!6\n!2\n");
    prints(
        "L 999+999+402?\nQ 114364 86399999999\n",
        "114364 86399999999000\n",
    );
    prints("L 6+5?\nQ 000000000000041498 0\n", "41498 0\n");
    prints("L 6+5?\nQ 0000000000000041498 0\n", "!20\n");
    prints(
        "\nL\nS \nS\r\n#\nQ 41498 0 \nQ 41498  0\n",
        &"!20\n".repeat(7),
    );
    prints("S", "!20\n");
    prints("L 6+5?\nQ 41498 0", "!20\n");
}

#[test]
fn long_lines() {
    let digits = |size: usize| format!("L {}\n", "1".repeat(size - 2));
    prints(digits(4_096), "!3\n");
    prints(digits(4_097), "!20\n");
    let between = format!("L 6+5?\n{}Q 41498 0\n", digits(50_000));
    prints(between, "!20\n41498 0\n");
    prints("x".repeat(50_000), "!20\n");
}

/// More is printed than a call has room for.
#[test]
fn many_lines() {
    let trace = format!("L 6+5?\n{}", "Q 41498 86400000000\n".repeat(1_000));
    prints(trace, &"41498 86399001000000\n".repeat(1_000));
}

#[test]
fn lists_that_a_day_goes_on_from() {
    let (plus, minus) = (list(b"6+5?"), list(b"6-5?"));
    let mut day = Replay::from_lists(plus.clone(), minus.clone());
    assert_eq!((day.current(), day.stored()), (&plus, &minus));
    let mut printed = Vec::new();
    day.feed(
        b"Q 41498 86400000000\nZ\nQ 41498 86400000000\n",
        &mut printed,
    );
    assert_eq!(printed, b"41498 86399001000000\n!9\n");
    assert_eq!((day.current(), day.stored()), (&minus, &minus));
    day.feed(b"L 6+5?\nS\nL 5?\nhalf a", &mut printed);
    assert_eq!((day.current(), day.stored()), (&list(b"5?"), &plus));
    // The end drops half a line, and keeps the lists.
    printed.clear();
    day.end(&mut printed);
    day.end(&mut printed);
    assert_eq!(printed, b"!20\n");
    assert_eq!((day.current(), day.stored()), (&list(b"5?"), &plus));
    assert_eq!(Replay::new(), Replay::from_lists(blank(), blank()));
    assert_eq!(Replay::default(), Replay::new());
}

/// A list that expires on 28 December 1972 is handed in: the day before is known whole.
#[test]
fn a_list_that_expires_within_a_month() {
    let leap = Leap {
        month: 6,
        sign: Sign::Positive,
    };
    let held = Schedule::new(&[leap], Mjd(41_679));
    let mut day = Replay::from_lists(held.clone(), blank());
    let mut printed = Vec::new();
    day.feed(
        b"Q 41678 86399999999\nQ 41678 86400000000\nQ 41679 0\nS\nL 6+5?\nQ 41678 0\nZ\n",
        &mut printed,
    );
    assert_eq!(printed, b"41678 86399999999000\n!9\n!10\n!10\n");
    assert_eq!((day.current(), day.stored()), (&held, &held));
}

#[test]
fn words_that_stand_for_no_list() {
    let mut words = *list(b"6+5?").words();
    words[511] = u32::MAX;
    let bad = Schedule::from_words(words);
    let mut day = Replay::from_lists(bad.clone(), blank());
    let mut printed = Vec::new();
    day.feed(
        b"Q 41498 0\nQ 0 999999999999999999\nS\nL 5?\n",
        &mut printed,
    );
    assert_eq!(printed, b"!11\n!11\n");
    assert_eq!((day.current(), day.stored()), (&list(b"5?"), &bad));
    day.feed(b"Z\n", &mut printed);
    assert_eq!(day.current(), &bad);
}

#[test]
fn a_short_room_stays() {
    let trace = b"L 6+5?\nS\nQ 41498 0\n";
    for room in 0..=22 {
        let (mut current, mut stored) = ([1; 514], [2; 514]);
        let (mut out, mut used, mut written) = (vec![7; room], 99, 99);
        let number = ffi::replay(
            &mut current,
            &mut stored,
            trace,
            &mut out,
            &mut used,
            &mut written,
        );
        if room < 22 {
            assert_eq!((number, used, written), (7, 0, 0));
            assert_eq!((current, stored), ([1; 514], [2; 514]));
            assert_eq!(out, vec![7; room]);
        } else {
            assert_eq!((number, used, written), (0, trace.len() as u64, 8));
            assert_eq!(&current, list(b"6+5?").words());
            assert_eq!(stored, current);
            assert!(out.starts_with(b"41498 0\n") && out[8..].iter().all(|&b| b == 7));
        }
    }
    for room in 0..=4 {
        let (mut out, mut written) = (vec![7; room], 99);
        assert_eq!(ffi::replay_end(b"", &mut out, &mut written), 0);
        assert_eq!((&out, written), (&vec![7; room], 0));
        let number = ffi::replay_end(b"S", &mut out, &mut written);
        if room < 4 {
            assert_eq!((number, written), (7, 0));
            assert_eq!(out, vec![7; room]);
        } else {
            assert_eq!((number, written), (0, 4));
            assert_eq!(out, b"!20\n");
        }
    }
}
