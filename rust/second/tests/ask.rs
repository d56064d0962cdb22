use second::ask::{run, Desk, CURRENT};

fn line(question: &str) -> String {
    Desk::new().line(question.as_bytes())
}

#[test]
fn answers() {
    assert_eq!(
        line("show 6+5?"),
        "1972-01-01 1972-06-30 +10; 1972-07-01 1972-11-30 +11; 1972-12-01 unknown"
    );
    assert_eq!(
        line("show 1-1?"),
        "1972-01-01 1972-01-31 +10; 1972-02-01 1972-02-29 +9; 1972-03-01 unknown"
    );
    assert!(line("show current").ends_with("2017-01-01 2027-05-31 +37; 2027-06-01 unknown"));
    assert_eq!(line("nybbles 6+6+5?"), "00f4");
    assert_eq!(line("text 00F4"), "6+6+5?");
    assert_eq!(line("text 0f"), "6+5?");
    assert_eq!(line("dtai current 57754"), "37");
    assert_eq!(line("dtai 1-1-1-1-1-1-1-1-1-1-1-1? 41652"), "-1");
    assert_eq!(line("tai 5? 41317 0"), "10000000");
    assert_eq!(line("utc 5? 10000000"), "41317 0");
    assert_eq!(line("uts 6+5? 41498 86400000000"), "86399001000000");
    assert_eq!(line("unsmooth 6+5? 41498 86399001000000"), "86400000000");
    assert_eq!(line("dtai 5? 00000000000000000000000041317"), "10");
}

#[test]
fn two_lists() {
    assert_eq!(
        line("compare 6+6+5? 6+12+5?"),
        "12 + 0; 18 ? +; = 41834 42017; contradict"
    );
    assert_eq!(line("compare 6? 6+5?"), "6 ? +; = 41499 41652; extends 2");
    assert_eq!(line("compare 11? 6+5?"), "6 0 +; contradict");
    assert_eq!(line("compare 5? 5?"), "same");
    assert_eq!(line("compare current current"), "same");
    // The built-in list's second leap is at month 12, its expiry at month 665, June
    // 2027: 55 years with 14 leap days and 151 days from 1972 on.
    assert_eq!(
        line("compare 6+5? current").split("; ").next(),
        Some("12 ? +")
    );
    assert!(line("compare 6+5? current").ends_with("; 540 ? +; = 41652 61557; extends 2"));
    assert_eq!(line("longer 6? 6+5?"), "6+5?");
    assert_eq!(line("longer 6+5? 6?"), "6+5?");
    assert_eq!(line("longer 5? 5?"), "5?");
    assert_eq!(line("longer current 6+5?").as_bytes(), CURRENT);
    assert_eq!(line("longer 6+5? current").as_bytes(), CURRENT);
    assert_eq!(line("longer current current").as_bytes(), CURRENT);
}

#[test]
fn two_lists_refused() {
    // The number alone.
    assert_eq!(line("compare 06+5? 5?"), "3");
    assert_eq!(line("compare 5? 06+5?"), "3");
    assert_eq!(line("compare x 06+5?"), "2");
    assert_eq!(line("compare 5? 5?\r"), "6");
    assert_eq!(line("longer 06+5? 5?"), "!3");
    assert_eq!(line("longer 5? 06+5?"), "!3");
    assert_eq!(line("longer x 06+5?"), "!2");
    assert_eq!(line("longer 6+6+5? 6+12+5?"), "!16");
    assert_eq!(line("longer 6-5? current"), "!16");
    // An empty field is an empty list.
    assert_eq!(line("compare 5? "), "1");
    assert_eq!(line("compare  5?"), "1");
    assert_eq!(line("compare  "), "1");
    assert_eq!(line("longer 5? "), "!1");
    assert_eq!(line("longer  5?"), "!1");
    assert_eq!(line("longer  "), "!1");
}

#[test]
fn refusals() {
    assert_eq!(line("dtai 06+5? 41317"), "!3 0");
    assert_eq!(line("show 1000?"), "!3 3");
    assert_eq!(line("nybbles x"), "!2 0");
    assert_eq!(line("text 9d"), "!1 2");
    assert_eq!(line("text f400"), "!6 2");
    assert_eq!(line("dtai 5? 41316"), "!8");
    assert_eq!(line("dtai 5? 18446744073709551615"), "!10");
    assert_eq!(line("uts 5? 41317 18446744073709551615"), "!9");
    assert_eq!(line("show 5?\r"), "!6 2");
}

#[test]
fn empty_fields() {
    assert_eq!(line("show "), "!1 0");
    assert_eq!(line("nybbles "), "!1 0");
    assert_eq!(line("text "), "!1 0");
    assert_eq!(line("dtai  41317"), "!1 0");
    assert_eq!(line("uts  41317 0"), "!1 0");
    for q in [
        "dtai 5? ",
        "dtai  ",
        "tai 5?  0",
        "tai 5? 41317 ",
        "show  ",
        "text  ",
    ] {
        assert!(line(q).starts_with('?'), "{q:?}");
    }
}

#[test]
fn long_lines() {
    let padded = |size: usize| format!("dtai 5? {}41317", "0".repeat(size - 13));
    assert_eq!(padded(8_192).len(), 8_192);
    assert_eq!(line(&padded(8_191)), "10");
    assert_eq!(line(&padded(8_192)), "10");
    assert!(line(&padded(8_193)).starts_with('?'));
    assert!(line(&padded(100_000)).starts_with('?'));
    let text = |size: usize| format!("text {}", "0".repeat(size - 5));
    assert_eq!(line(&text(8_191)), "!5 256");
    assert!(line(&text(8_192)).starts_with('?')); // an odd number of digits
    assert!(line(&text(8_193)).starts_with('?'));
}

#[test]
fn no_questions() {
    for q in [
        "",
        " ",
        "show",
        " show 5?",
        "show  5?",
        "show 5? ",
        "show 5? 1",
        "Show 5?",
        "dtai 5?",
        "dtai 5? 1 2",
        "dtai 5? x",
        "dtai 5? +1",
        "dtai 5? -1",
        "dtai 5? 1.0",
        "dtai 5? 18446744073709551616",
        "dtai x 18446744073709551616",
        "dtai x y",
        "tai 5? 1",
        "tai x 1 y",
        "utc 5?",
        "uts 5? 41317",
        "text 0",
        "text 0g",
        "text f4 ",
        "text",
        "compare",
        "compare ",
        "compare 5?",
        "compare 5? 5? ",
        "compare 5?  5?",
        "compare 5? 5? 5?",
        "longer",
        "longer 5?",
        "longer 5? 5? 5?",
        "ask",
        "figures",
        "text +4",
        "dtai 5? 41317\r",
        "dtai\t5?\t41317",
    ] {
        assert!(line(q).starts_with('?'), "{q:?}");
    }
}

#[test]
fn lines() {
    let mut out = Vec::new();
    run(&b"dtai 5? 41317\n\nnybbles 5?\xff\ntext f4"[..], &mut out).unwrap();
    assert_eq!(out, b"10\n? no question\n!6 2\n5?\n");
    let mut out = Vec::new();
    run(&b""[..], &mut out).unwrap();
    assert_eq!(out, b"");
    let mut out = Vec::new();
    run(&b"\n"[..], &mut out).unwrap();
    assert_eq!(out, b"? no question\n");
}

/// A desk that has to drop lists answers like a fresh one.
#[test]
fn many_lists() {
    let mut desk = Desk::new();
    for round in 0..3 {
        for gap in 1..=999 {
            let q = format!("dtai {gap}+{}? 41317", 1 + round);
            assert_eq!(desk.line(q.as_bytes()), "10");
            let q = format!("dtai {gap}x 41317");
            assert_eq!(
                desk.line(q.as_bytes()),
                format!("!2 {}", gap.to_string().len())
            );
        }
    }
}
