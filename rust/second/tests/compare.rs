//! Requests 7/14 and 10/14: where two lists part, the longer of two, and extension.

mod common;

use common::{first_list, leaps_of, longer, month_mjd, on_a_first, raw, to_month, Rng};
use second::*;

/// The comparison's text, written with more room than any needs.
fn compared(first: &str, second: &str) -> Result<String, u8> {
    let mut out = vec![b'.'; 5_000];
    let (number, written) = compare_text(first.as_bytes(), second.as_bytes(), &mut out);
    let rest = out.split_off(written as usize);
    assert!(rest.iter().all(|&b| b == b'.'));
    assert!(number == 0 || written == 0);
    match number {
        0 => Ok(String::from_utf8(out).unwrap()),
        _ => Err(number),
    }
}

/// The line of two expiries, given as months.
fn months(first: u32, second: u32) -> String {
    format!("= {} {}", month_mjd(first), month_mjd(second))
}

/// Checks a comparison's lines, and those of the two lists in the other order:
/// marks, expiries and `extends` are then turned round.
fn parts(first: &str, second: &str, lines: &[&str]) {
    let text = |lines: &[String]| lines.iter().map(|l| format!("{l}\n")).collect::<String>();
    let forth: Vec<String> = lines.iter().map(|l| l.to_string()).collect();
    let turned = |line: &&str| match line.split(' ').collect::<Vec<_>>()[..] {
        ["extends", "1"] => "extends 2".to_string(),
        ["extends", "2"] => "extends 1".to_string(),
        [what, one, other] => format!("{what} {other} {one}"),
        _ => line.to_string(),
    };
    let back: Vec<String> = lines.iter().map(turned).collect();
    assert_eq!(compared(first, second), Ok(text(&forth)));
    assert_eq!(compared(second, first), Ok(text(&back)));
}

#[test]
fn worked_answers() {
    // Leaps 6 and 12, expiry 17, June 1973; leaps 6 and 18, expiry 23, December 1973.
    let lines = ["12 + 0", "18 ? +", "= 41834 42017", "contradict"];
    parts("6+6+5?", "6+12+5?", &lines);
    assert_eq!(
        compared("6+6+5?", "6+12+5?").unwrap(),
        "12 + 0\n18 ? +\n= 41834 42017\ncontradict\n"
    );
    assert_eq!(
        compared("6+12+5?", "6+6+5?").unwrap(),
        "12 0 +\n18 + ?\n= 42017 41834\ncontradict\n"
    );
    parts("6?", "6+5?", &["6 ? +", "= 41499 41652", "extends 2"]);
    parts("11?", "6+5?", &["6 0 +", "contradict"]);
    for list in ["5?", "6+5?", "6-5?", "999+999-402?"] {
        parts(list, list, &["same"]);
    }
}

#[test]
fn extensions() {
    parts("5?", "6?", &[&months(5, 6), "extends 2"]);
    parts("6+5?", "6+6?", &[&months(11, 12), "extends 2"]);
    // A leap in the month that starts on the shorter list's expiry, and one behind it.
    parts("6+5?", "6+5-1?", &["11 ? -", &months(11, 12), "extends 2"]);
    parts("6+5?", "6+6+1?", &["12 ? +", &months(11, 13), "extends 2"]);
    parts(
        "6?",
        "6+6-5?",
        &["6 ? +", "12 ? -", &months(6, 17), "extends 2"],
    );
    parts("12+5?", "6?", &["12 + ?", &months(17, 6), "extends 1"]);
}

#[test]
fn contradictions() {
    parts("6+5?", "6-5?", &["6 + -", "contradict"]);
    parts("1+1?", "1-1?", &["1 + -", "contradict"]);
    // Known by both in the last month before an expiry.
    parts("7?", "6+1?", &["6 0 +", "contradict"]);
    parts("5+1?", "6?", &["5 + 0", "contradict"]);
    parts("6+5?", "6+4-2?", &["10 0 -", &months(11, 12), "contradict"]);
    let lines = ["6 0 +", "7 + 0", &months(8, 11), "contradict"];
    parts("7+1?", "6+5?", &lines);
    // A further leap behind the shorter expiry does not mend it.
    let lines = ["6 + -", "8 ? +", &months(7, 9), "contradict"];
    parts("6+1?", "6-2+1?", &lines);
}

#[test]
fn the_last_months() {
    // 999 + 999 + 401 is 2399, the last month that may have a leap.
    let with_leap = "999+999+401+1?";
    parts("999+999+402?", with_leap, &["2399 0 +", "contradict"]);
    let lines = ["2399 ? +", &months(2399, 2400), "extends 2"];
    parts("999+999+401?", with_leap, &lines);
}

#[test]
fn the_longest_comparison() {
    // Leaps at 999, 1001, .., 1509 and at 998, 1000, .., 1508: 256 each.
    let first = format!("999+{}890?", "2+".repeat(255));
    let second = format!("998+{}892?", "2+".repeat(255));
    let mut lines: Vec<String> = (998..=1_509)
        .map(|m| format!("{m} {}", if m % 2 == 1 { "+ 0" } else { "0 +" }))
        .collect();
    // 1 December 2171 and 1 January 2172.
    lines.extend(["= 114335 114366", "contradict"].map(String::from));
    let lines: Vec<&str> = lines.iter().map(String::as_str).collect();
    parts(&first, &second, &lines);
    // 510 leap lines of 9 bytes and 2 of 8, then 16 and 11.
    let length = 510 * 9 + 2 * 8 + 16 + 11;
    assert_eq!(length, 4_633);
    assert_eq!(compared(&first, &second).map(|t| t.len()), Ok(length));
}

/// A list of 257 leaps.
fn too_many() -> String {
    format!("{}1?", "1+".repeat(257))
}

#[test]
fn refused_lists() {
    let many = too_many();
    let refused = [
        ("", 1),
        ("6+", 1),
        ("x", 2),
        ("current", 2),
        ("06+5?", 3),
        ("1000?", 3),
        ("999+999+403?", 4),
        (many.as_str(), 5),
        ("5?\n", 6),
    ];
    for (bad, number) in refused {
        assert_eq!(compared(bad, "5?"), Err(number), "{bad:?}");
        assert_eq!(compared("5?", bad), Err(number), "{bad:?}");
        // The first list's refusal, whatever the second's is.
        for (other, _) in refused {
            assert_eq!(compared(bad, other), Err(number), "{bad:?} {other:?}");
        }
        // Before 7.
        assert_eq!(compare_text(bad.as_bytes(), b"5?", &mut []), (number, 0));
        assert_eq!(compare_text(b"5?", bad.as_bytes(), &mut []), (number, 0));
    }
}

#[test]
fn rooms() {
    let whole = b"12 + 0\n18 ? +\n= 41834 42017\ncontradict\n";
    assert_eq!(whole.len(), 7 + 7 + 14 + 11);
    for room in 0..whole.len() + 20 {
        let mut out = vec![b'.'; room];
        let result = compare_text(b"6+6+5?", b"6+12+5?", &mut out);
        if room < whole.len() {
            assert_eq!(result, (7, 0));
            assert_eq!(out, vec![b'.'; room]);
        } else {
            assert_eq!(result, (0, whole.len() as u64));
            assert_eq!(&out[..whole.len()], whole);
            assert!(out[whole.len()..].iter().all(|&b| b == b'.'));
        }
    }
    assert_eq!(compare_text(b"5?", b"5?", &mut [0; 4]), (7, 0));
    assert_eq!(compare_text(b"5?", b"5?", &mut [0; 5]), (0, 5));
}

#[test]
fn the_longer_list() {
    /// Which list's bytes are handed back: their place, and how many.
    fn back(first: &str, second: &str) -> (u8, usize, usize) {
        let lists = format!("{first}|{second}").into_bytes();
        let (one, other) = (&lists[..first.len()], &lists[first.len() + 1..]);
        let (number, part) = longer_text(one, other);
        let place = part.as_ptr() as usize - lists.as_ptr() as usize;
        (number, place, part.len())
    }
    assert_eq!(back("6+5?", "6?"), (0, 0, 4));
    assert_eq!(back("6?", "6+5?"), (0, 3, 4));
    assert_eq!(back("6+5?", "6+6?"), (0, 5, 4));
    assert_eq!(back("6+5?", "6+5-1?"), (0, 5, 6));
    // The first, where they are the same.
    assert_eq!(back("6+5?", "6+5?"), (0, 0, 4));
    assert_eq!(back("6+6+5?", "6+12+5?"), (16, 0, 0));
    assert_eq!(back("11?", "6+5?"), (16, 0, 0));
    // The empty start of the first, also for the second list's refusal.
    assert_eq!(back("06+5?", "5?"), (3, 0, 0));
    assert_eq!(back("5?", "06+5?"), (3, 0, 0));
    assert_eq!(back("", "x"), (1, 0, 0));
    assert_eq!(back("x", ""), (2, 0, 0));
    assert_eq!(back("5?", "5? "), (6, 0, 0));
    assert_eq!(back("999+999+403?", "5?"), (4, 0, 0));
    assert_eq!(back("5?", &too_many()), (5, 0, 0));
}

#[test]
fn extension_of_schedules() {
    let s = to_month(&[(6, 0)], 11);
    let yes = |longer: &Raw, shorter: &Raw| assert_eq!(extends(longer, shorter), (0, true));
    let no = |longer: &Raw, shorter: &Raw| assert_eq!(extends(longer, shorter), (0, false));
    yes(&s, &s);
    yes(&to_month(&[(6, 0)], 12), &s);
    no(&s, &to_month(&[(6, 0)], 12));
    yes(&to_month(&[(6, 0), (11, 1)], 12), &s);
    no(&to_month(&[(6, 0), (10, 1)], 12), &s);
    no(&to_month(&[(6, 1)], 12), &s);
    no(&to_month(&[], 12), &s);
    no(&to_month(&[(7, 0)], 12), &s);
    no(&to_month(&[(6, 0)], 10), &s);
    yes(&s, &to_month(&[], 6));
    no(&s, &to_month(&[], 7));
    let malformed = [
        Raw::blank(),
        to_month(&[(6, 0)], 6),
        to_month(&[(6, 2)], 11),
        to_month(&[], 1_000),
        raw(&[(6, 0)], 11),
        raw(&[(6, 0)], 114_367),
    ];
    for bad in &malformed {
        assert_eq!(extends(&s, bad), (11, false));
        assert_eq!(extends(bad, &s), (11, false));
        assert_eq!(extends(bad, bad), (11, false));
    }
}

/// Two lists that expire within a month, or one of them.
#[test]
fn extension_to_the_day() {
    let yes = |longer: &Raw, shorter: &Raw| assert_eq!(extends(longer, shorter), (0, true));
    let no = |longer: &Raw, shorter: &Raw| assert_eq!(extends(longer, shorter), (0, false));
    // Month 6 starts on 41499, month 11 on 41652.
    let s = raw(&[(6, 0)], 41_679);
    yes(&s, &s);
    for later in [41_680, 41_682, 41_683, 50_000] {
        yes(&raw(&[(6, 0)], later), &s);
        no(&s, &raw(&[(6, 0)], later));
    }
    // It knows that there is no leap at month 11, and nothing of month 12.
    no(&raw(&[(6, 0), (11, 0)], 41_679), &s);
    no(&raw(&[(6, 0), (11, 0)], 41_700), &s);
    yes(&raw(&[(6, 0), (12, 0)], 41_700), &s);
    yes(&raw(&[(6, 0), (11, 0)], 41_679), &to_month(&[(6, 0)], 11));
    // Before the leap's month, on its first day, and a day later.
    yes(&s, &raw(&[], 41_498));
    yes(&s, &raw(&[], 41_499));
    no(&s, &raw(&[], 41_500));
    yes(&s, &raw(&[(6, 0)], 41_500));
    no(&s, &raw(&[(6, 1)], 41_500));
    no(&raw(&[], 41_500), &raw(&[(6, 0)], 41_500));
    no(&raw(&[(6, 1)], 41_500), &raw(&[(6, 0)], 41_500));
}

/// Two lists that are often related: one made longer, or with one word changed.
fn pair(rng: &mut Rng) -> (Raw, Raw) {
    loop {
        let one = first_list(rng);
        let mut other = match rng.range(0, 7) {
            0 => one.clone(),
            1 => first_list(rng),
            _ => on_a_first(&longer(rng, &one)),
        };
        if other.count > 0 && rng.chance(3) {
            let at = rng.range(0, u64::from(other.count) - 1) as usize;
            match rng.range(0, 1) {
                0 => other.words[at].1 ^= 1,
                _ => other.words[at].0 += 1,
            }
        }
        if well_formed(&other) {
            return if rng.chance(2) {
                (one, other)
            } else {
                (other, one)
            };
        }
    }
}

fn spelt(list: &Raw) -> String {
    let mut out = [0; 752];
    let (number, written) = write_text(list, &mut out);
    assert_eq!(number, 0);
    String::from_utf8(out[..written as usize].to_vec()).unwrap()
}

/// Whether one list extends the other, in the words of 01 and 10/14.
fn by_words(longer: &Raw, shorter: &Raw) -> bool {
    let known = |l: &&(u32, u32)| month_mjd(l.0) < shorter.expiry_mjd.into();
    let same = leaps_of(longer).iter().filter(known).eq(leaps_of(shorter));
    same && longer.expiry_mjd >= shorter.expiry_mjd
}

/// A list's mark in a month, from its leaps.
fn mark(list: &Raw, month: u32) -> &'static str {
    match leaps_of(list).iter().find(|l| l.0 == month) {
        _ if month_mjd(month) >= list.expiry_mjd.into() => "?",
        None => "0",
        Some((_, 0)) => "+",
        Some(_) => "-",
    }
}

#[test]
fn lines_of_random_pairs() {
    let mut rng = Rng::new(7);
    let mut met = [0; 4];
    for _ in 0..4_000 {
        let (one, other) = pair(&mut rng);
        let text = compared(&spelt(&one), &spelt(&other)).unwrap();
        let mut lines: Vec<&str> = text.lines().collect();
        let last = lines.pop().unwrap();

        // The last line says which of the two extends the other.
        let forth = by_words(&one, &other);
        let back = by_words(&other, &one);
        let names = ["contradict", "extends 2", "extends 1", "same"];
        let which = 2 * usize::from(forth) + usize::from(back);
        assert_eq!(last, names[which]);
        assert_eq!(extends(&one, &other), (0, forth));
        met[which] += 1;

        // Nothing stands before it exactly when the two are the same.
        assert_eq!(lines.is_empty(), one == other);

        // The expiries, if they differ.
        if one.expiry_mjd != other.expiry_mjd {
            let expiries = format!("= {} {}", one.expiry_mjd, other.expiry_mjd);
            assert_eq!(lines.pop(), Some(expiries.as_str()));
        }

        // A line for each month of a leap at which the marks differ, rising.
        let mut months: Vec<u32> = [&one, &other]
            .iter()
            .flat_map(|l| leaps_of(l).iter().map(|leap| leap.0))
            .collect();
        months.sort_unstable();
        months.dedup();
        months.retain(|&m| mark(&one, m) != mark(&other, m));
        let expected: Vec<String> = (months.iter())
            .map(|&m| format!("{m} {} {}", mark(&one, m), mark(&other, m)))
            .collect();
        assert_eq!(lines, expected);

        // A contradiction: a line without `?`, and so a day with two DTAI.
        let known = lines.iter().any(|line| !line.contains('?'));
        assert_eq!(known, last == "contradict");
        let two_dtai = months.iter().any(|&m| {
            let (a, b) = (dtai(&one, month_mjd(m)), dtai(&other, month_mjd(m)));
            (a.0, b.0) == (0, 0) && a.1 != b.1
        });
        assert_eq!(two_dtai, last == "contradict");
    }
    assert!(met.iter().all(|&n| n > 200), "{met:?}");
}
