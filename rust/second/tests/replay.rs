//! Request 12/14: a branch's day replayed.

mod common;

use common::{first_list, leaps_of, longer, month_mjd, on_a_first, raw, to_month, Rng};
use second::replay::{replay, replay_end, run, State};
use second::*;

/// What a whole trace prints from a state, in one piece.
fn from(state: &mut State, trace: &[u8]) -> Vec<u8> {
    let mut out = vec![b'.'; 22 * (trace.len() + 1)];
    let (number, used, written) = replay(state, trace, &mut out);
    assert_eq!(number, 0);
    let mut end = [0; 4];
    let (number, more) = replay_end(&trace[used as usize..], &mut end);
    assert_eq!(number, 0);
    out.truncate(written as usize);
    out.extend_from_slice(&end[..more as usize]);
    out
}

/// What a day's trace prints, by `replay` and by `run`.
fn day(trace: impl AsRef<[u8]>) -> String {
    let trace = trace.as_ref();
    let printed = from(&mut State::default(), trace);
    let mut out = Vec::new();
    run(trace, &mut out).unwrap();
    assert_eq!(printed, out);
    String::from_utf8(out).unwrap()
}

#[test]
fn worked_answers() {
    assert_eq!(
        day("L 6+5?\nQ 41498 86400000000\n"),
        "41498 86399001000000\n"
    );
    // P10 to P12 of 01.
    assert_eq!(
        day("L 6+5?\nQ 41498 85401000000\nQ 41498 85402000000\n"),
        "41498 85401000000000\n41498 85401999000000\n"
    );
    assert_eq!(
        day("L 6-5?\nQ 41498 86398000000\nQ 41498 86399000000\n"),
        "41498 86398999000000\n!9\n"
    );
    // Nothing is known at the start, nor after a reset to it.
    assert_eq!(day("Q 41498 0\n"), "!11\n");
    assert_eq!(day("L 6+5?\nZ\nQ 41498 0\n"), "!11\n");
    assert_eq!(day("S\nZ\nQ 0 999999999999999999\n"), "!11\n");
    // The order of 01: 8, 9, 10, 9. Month 11 starts on MJD 41652.
    assert_eq!(day("L 6+5?\nQ 41316 99999999999\n"), "!8\n");
    assert_eq!(day("L 6+5?\nQ 41652 86401000000\n"), "!9\n");
    assert_eq!(
        day("L 6+5?\nQ 41652 0\nQ 41651 85399000000\n"),
        "!10\n!10\n"
    );
    assert_eq!(
        day("L 6+5?\nQ 41651 85398999999\n"),
        "41651 85398999999000\n"
    );
    assert_eq!(day("L 6+5?\nQ 41499 86400000000\n"), "!9\n");
}

#[test]
fn stored_and_reset() {
    let q = "Q 41498 86400000000\n";
    let known = "41498 86399001000000\n";
    assert_eq!(
        day(format!("L 6+5?\nS\nL 6-5?\n{q}Z\n{q}")),
        format!("!9\n{known}")
    );
    assert_eq!(day(format!("L 6+5?\nS\nL 6-5?\nS\nZ\n{q}")), "!9\n");
    assert_eq!(day(format!("L 6+5?\nS\nZ\nZ\n{q}")), known);
    // A refused list keeps the current one, and so does what is no line.
    assert_eq!(day(format!("L 6+5?\nL 06+5?\n{q}")), format!("!3\n{known}"));
    assert_eq!(
        day(format!("L 6+5?\nS \n\nZ \nl 5?\n{q}")),
        format!("{}{known}", "!20\n".repeat(4))
    );
    assert_eq!(day(format!("L 6+5?\nS \nL 6-5?\nZ\n{q}")), "!20\n!11\n");
}

#[test]
fn refused_lists() {
    let many = format!("L {}1?\n", "1+".repeat(257));
    for (line, printed) in [
        ("L \n", "!1\n"),
        ("L 6+\n", "!1\n"),
        ("L  6+5?\n", "!2\n"),
        ("L current\n", "!2\n"),
        ("L x\n", "!2\n"),
        ("L 06+5?\n", "!3\n"),
        ("L 1000?\n", "!3\n"),
        ("L 999+999+403?\n", "!4\n"),
        (many.as_str(), "!5\n"),
        ("L 5?\r\n", "!6\n"),
        ("L 5? \n", "!6\n"),
        ("L 5?\0\n", "!6\n"),
        ("L 5\r?\n", "!2\n"),
    ] {
        assert_eq!(day(line), printed, "{line:?}");
    }
}

#[test]
fn no_lines() {
    for line in [
        "",
        " ",
        "#",
        "# day 1",
        "L",
        "LL 5?",
        "l 5?",
        "L\t5?",
        " L 5?",
        "S ",
        " S",
        "S\r",
        "s",
        "SS",
        "S 5?",
        "Z ",
        "Z\r",
        "z",
        "ZZ",
        "\r",
        "\0",
        "Q",
        "Q ",
        "Q  ",
        "Q 41498",
        "Q 41498 ",
        "Q  0",
        "Q 41498  0",
        "Q  41498 0",
        "Q 41498 0 ",
        "Q 41498 0\r",
        "Q 41498 0 0",
        "Q 41498\t0",
        "Q +41498 0",
        "Q 41498 -0",
        "Q 41498 0.0",
        "Q x 0",
        "Q 41498 x",
        "q 41498 0",
        "Q\0 41498 0",
        "current",
        "show 5?",
        "20",
    ] {
        assert_eq!(day(format!("{line}\n")), "!20\n", "{line:?}");
        assert_eq!(
            day(format!("L 6+5?\n{line}\nQ 41498 0\n")),
            "!20\n41498 0\n",
            "{line:?}"
        );
    }
    assert_eq!(day(b"\xff\n"), "!20\n");
    assert_eq!(day(b"Q 41498 \xb2\n"), "!20\n");
}

#[test]
fn numbers_of_a_question() {
    let q = |mjd: &str, micros: &str| day(format!("L 6+5?\nQ {mjd} {micros}\n"));
    let zeros = |digits: usize, number: &str| "0".repeat(digits - number.len()) + number;
    for digits in [5, 6, 17, 18] {
        assert_eq!(q(&zeros(digits, "41498"), "00"), "41498 0\n");
        assert_eq!(q("41498", &zeros(digits, "7")), "41498 7000\n");
    }
    for digits in [19, 20, 21, 40] {
        assert_eq!(q(&zeros(digits, "41498"), "0"), "!20\n");
        assert_eq!(q("41498", &zeros(digits, "7")), "!20\n");
    }
    let nines = "9".repeat(18);
    assert_eq!(q(&nines, "0"), "!10\n");
    assert_eq!(q("41498", &nines), "!9\n");
    assert_eq!(q(&nines, &nines), "!9\n");
    for over in [
        "1".repeat(19),
        "9".repeat(19),
        u64::MAX.to_string(),
        "18446744073709593114".into(),
    ] {
        assert_eq!(q(&over, "0"), "!20\n");
        assert_eq!(q("41498", &over), "!20\n");
    }
    assert_eq!(q("0", "0"), "!8\n");
}

#[test]
fn long_lines() {
    // A list of 4,094 bytes stops at its fourth digit; of 4,095 it is not read.
    let digits = |size: usize| format!("L {}\n", "1".repeat(size - 2));
    assert_eq!(day(digits(4_095)), "!3\n");
    assert_eq!(day(digits(4_096)), "!3\n");
    assert_eq!(day(digits(4_097)), "!20\n");
    assert_eq!(day(digits(4_098)), "!20\n");
    assert_eq!(day(digits(1_000_000)), "!20\n");
    // One `!20` for the whole line, and the next line is a line.
    let trace = format!("L 6+5?\n{}Q 41498 0\n", digits(100_000));
    assert_eq!(day(trace), "!20\n41498 0\n");
    // A complete list, and then too much.
    for (size, printed) in [(4_096, "!6\n"), (4_097, "!20\n")] {
        let list = format!("L 5?{}\n", "5".repeat(size - 4));
        assert_eq!(day(&list), printed);
        assert_eq!(day(format!("{list}Q 41317 0\n")), format!("{printed}!11\n"));
    }
    assert_eq!(day(format!("{}\n", "S".repeat(4_096))), "!20\n");
}

#[test]
fn the_end_of_a_trace() {
    assert_eq!(day(""), "");
    assert_eq!(day("\n"), "!20\n");
    for left in [
        "S",
        "Z",
        "L 6+5?",
        "Q 41498 0",
        "x",
        "\r",
        &"L".repeat(5_000),
    ] {
        assert_eq!(day(left), "!20\n");
        let trace = format!("L 6+5?\nQ 41498 0\n{left}");
        assert_eq!(day(trace), "41498 0\n!20\n");
    }
    for room in 0..10 {
        let mut out = vec![b'.'; room];
        assert_eq!(replay_end(b"", &mut out), (0, 0));
        assert!(out.iter().all(|&b| b == b'.'));
        let ended = replay_end(b"S", &mut out);
        if room < 4 {
            assert_eq!(ended, (7, 0));
            assert!(out.iter().all(|&b| b == b'.'));
        } else {
            assert_eq!(ended, (0, 4));
            assert_eq!(&out[..4], b"!20\n");
            assert!(out[4..].iter().all(|&b| b == b'.'));
        }
    }
}

#[test]
fn rooms() {
    // Two Q of 21 bytes with their LF, an S between them, and half a line.
    let trace = b"L 6+5?\nQ 41498 86400000000\nS\nQ 41498 86400000000\nS";
    let answer = b"41498 86399001000000\n";
    assert_eq!(answer.len(), 21);
    let first = 7 + 20;
    for room in 0..80 {
        let mut out = vec![b'.'; room];
        let mut state = State::default();
        let got = replay(&mut state, trace, &mut out);
        let (used, written) = match room {
            0..=21 => (0, 0),
            // After the first answer there is no room for another line, not even an S.
            22..=42 => (first, 21),
            _ => (first + 2 + 20, 42),
        };
        assert_eq!(
            got,
            (if room < 22 { 7 } else { 0 }, used as u64, written as u64),
            "{room}"
        );
        assert_eq!(&out[..written], &answer.repeat(2)[..written]);
        assert!(out[written..].iter().all(|&b| b == b'.'));
        let known = to_month(&[(6, 0)], 11);
        let current = if room < 22 {
            Raw::blank()
        } else {
            known.clone()
        };
        let stored = if room < 43 { Raw::blank() } else { known };
        assert_eq!((state.current(), state.stored()), (&current, &stored));
    }
    // Whatever the trace is.
    let mut state = State::default();
    assert_eq!(replay(&mut state, b"", &mut [0; 21]), (7, 0, 0));
    assert_eq!(replay(&mut state, b"S", &mut [0; 21]), (7, 0, 0));
    assert_eq!(replay(&mut state, b"", &mut [0; 22]), (0, 0, 0));
    assert_eq!(replay(&mut state, b"S", &mut [0; 22]), (0, 0, 0));
    // The longest answer fills 22 bytes: a list to month 2400, on the day before Z.
    let mut out = [0; 22];
    let trace = b"L 999+999+402?\nQ 114364 86399999999\n";
    assert_eq!(
        replay(&mut state, trace, &mut out),
        (0, trace.len() as u64, 22)
    );
    assert_eq!(&out, b"114364 86399999999000\n");
}

#[test]
fn words_that_stand_for_no_list() {
    let mut sign = to_month(&[(6, 0)], 11);
    sign.words[0].1 = 2;
    let mut far = to_month(&[(6, 0)], 11);
    far.words[255] = (u32::MAX, u32::MAX);
    // The last of them has an expiry month, 11, where the expiry day is due.
    let lists = [
        sign,
        far,
        to_month(&[], 1_000),
        to_month(&[(6, 0)], 6),
        Raw::blank(),
        raw(&[(6, 0)], 11),
    ];
    for bad in lists {
        let good = to_month(&[(6, 0)], 11);
        let mut state = State::new(bad.clone(), good.clone());
        let printed = from(&mut state, b"Q 41498 0\nQ 0 999999999999999999\n");
        assert_eq!(printed, b"!11\n!11\n");
        assert_eq!((state.current(), state.stored()), (&bad, &good));
        // S and Z copy the words as they are.
        assert_eq!(from(&mut state, b"S\nL 5?\n"), b"");
        assert_eq!((state.current(), state.stored()), (&to_month(&[], 5), &bad));
        assert_eq!(from(&mut state, b"Z\nQ 41498 0\n"), b"!11\n");
        assert_eq!((state.current(), state.stored()), (&bad, &bad));
        assert_eq!(from(&mut state, b"L 6+5?\nQ 41498 0\n"), b"41498 0\n");
        assert_eq!((state.current(), state.stored()), (&good, &bad));
    }
}

/// A day that goes on from a list that expires within a month, on 30 November 1972.
#[test]
fn a_last_day_that_is_known_whole() {
    let mut state = State::new(Raw::blank(), raw(&[(6, 0)], 41_651));
    let trace = b"Z\nQ 41650 86399999999\nQ 41650 86400000000\nQ 41651 0\nL 6+5?\nZ\nS\n";
    let printed = b"41650 86399999999000\n!9\n!10\n";
    assert_eq!(from(&mut state, trace), printed);
    assert_eq!(state.current(), &raw(&[(6, 0)], 41_651));
    assert_eq!(state.stored(), state.current());
}

fn spelt(list: &Raw) -> String {
    let mut out = [0; 752];
    let (number, written) = write_text(list, &mut out);
    assert_eq!(number, 0);
    String::from_utf8(out[..written as usize].to_vec()).unwrap()
}

/// A question near a leap or the expiry of a list.
fn question(rng: &mut Rng, list: &Raw) -> String {
    let days: Vec<u64> = leaps_of(list)
        .iter()
        .map(|l| month_mjd(l.0))
        .chain([list.expiry_mjd.into()])
        .collect();
    let mjd = rng.pick(&days) - rng.range(0, 2);
    let micros = rng.range(85_398, 86_402) * 1_000_000 - rng.range(0, 1);
    format!("Q {mjd} {micros}\n")
}

/// A trace of that many lines over these lists, in which questions are repeated.
fn trace(rng: &mut Rng, lists: &[Raw], lines: usize) -> Vec<String> {
    let which = |rng: &mut Rng| rng.range(0, lists.len() as u64 - 1) as usize;
    let questions: Vec<String> = (0..12)
        .map(|_| {
            let list = &lists[which(rng)];
            question(rng, list)
        })
        .collect();
    (0..lines)
        .map(|_| match rng.range(0, 9) {
            0 | 1 => format!("L {}\n", spelt(&lists[which(rng)])),
            2 => "S\n".into(),
            3 => "Z\n".into(),
            4 => rng
                .pick(&["\n", "L \n", "L 1000?\n", "Q 1\n", "x\n"])
                .into(),
            _ => questions[rng.range(0, 11) as usize].clone(),
        })
        .collect()
}

/// Cut at any line end, and continued from the state, it prints the same.
#[test]
fn cut_at_line_ends() {
    let mut rng = Rng::new(12);
    for _ in 0..300 {
        let lists: Vec<Raw> = (0..3).map(|_| first_list(&mut rng)).collect();
        let lines = trace(&mut rng, &lists, 20);
        let mut whole = State::default();
        let printed = from(&mut whole, lines.concat().as_bytes());
        for cut in 0..=lines.len() {
            let mut first = State::default();
            let mut parts = from(&mut first, lines[..cut].concat().as_bytes());
            let mut second = State::new(first.current().clone(), first.stored().clone());
            parts.extend(from(&mut second, lines[cut..].concat().as_bytes()));
            assert_eq!(parts, printed);
            assert_eq!(
                (second.current(), second.stored()),
                (whole.current(), whole.stored())
            );
        }
    }
}

/// How often a question that had a time got the same again, and another one.
fn repeated(trace: &[String]) -> (usize, usize) {
    let mut times = std::collections::HashMap::new();
    let mut state = State::default();
    let (mut same, mut other) = (0, 0);
    for line in trace {
        let printed = from(&mut state, line.as_bytes());
        if !line.starts_with('Q') || printed.starts_with(b"!") {
            continue;
        }
        match times.insert(line, printed.clone()) {
            None => {}
            Some(before) if before == printed => same += 1,
            Some(_) => other += 1,
        }
    }
    (same, other)
}

/// If of any two accepted lists one extends the other, no question repeated has
/// two different times, however the resets fall. Of other lists it may.
#[test]
fn extending_lists_keep_every_time() {
    let mut rng = Rng::new(14);
    let (mut kept, mut changed) = (0, 0);
    for _ in 0..200 {
        let mut lists = vec![first_list(&mut rng)];
        for _ in 0..3 {
            let next = longer(&mut rng, &lists[lists.len() - 1]);
            lists.push(on_a_first(&next));
        }
        for (at, one) in lists.iter().enumerate() {
            let others = lists[..at].iter();
            assert!({ others }.all(|other| extends(one, other) == (0, true)));
        }
        let (same, other) = repeated(&trace(&mut rng, &lists, 200));
        assert_eq!(other, 0);
        kept += same;
        // With its signs turned one of them contradicts the others.
        let count = lists[0].count as usize;
        lists[0].words[..count].iter_mut().for_each(|l| l.1 ^= 1);
        changed += repeated(&trace(&mut rng, &lists, 200)).1;
    }
    assert!(kept > 5_000, "only {kept} repeated");
    assert!(changed > 50, "only {changed} changed");
}

#[test]
fn input_in_any_pieces() {
    /// Gives a few bytes at a time.
    struct Slow<'a>(&'a [u8], usize);
    impl std::io::Read for Slow<'_> {
        fn read(&mut self, out: &mut [u8]) -> std::io::Result<usize> {
            let some = self.1.min(self.0.len()).min(out.len());
            out[..some].copy_from_slice(&self.0[..some]);
            self.0 = &self.0[some..];
            Ok(some)
        }
    }
    let trace = format!(
        "L 6+5?\nQ 41498 0\n{}\nS\nQ 41498 1\nZ\n\nQ 41498 2",
        "x".repeat(9_000)
    );
    let printed = "41498 0\n!20\n41498 1000\n!20\n!20\n";
    for size in [1, 2, 7, 4_096, 4_097, 10_000] {
        let mut out = Vec::new();
        run(Slow(trace.as_bytes(), size), &mut out).unwrap();
        assert_eq!(String::from_utf8(out).unwrap(), printed, "{size}");
    }
}
