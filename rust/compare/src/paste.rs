//! A failing case as a test in Rust, to be pasted into `rust/leap/tests`.

use std::fmt::Display;

use crate::call::{
    archive, second, Call, Kind, Outcome, Program, FILL, FILL_DTAI, FILL_PART, GUARD,
};
use crate::many::{Many, EDGE, FILL_NUMBER};
use crate::pairs::Pair;
use crate::replays::Day;

/// A test of that name with these lines in it.
fn test(name: &str, lines: Vec<String>) -> String {
    let body: String = lines.iter().map(|line| format!("    {line}\n")).collect();
    format!("#[test]\nfn {name}() {{\n{body}}}\n")
}

/// An array of 514 words, by those that are not 0.
fn words_lines(name: &str, words: &[u32]) -> Vec<String> {
    let mut lines = lent_words_lines(name, words);
    if lines.len() == 1 {
        lines = vec![format!("let {name} = [0; 514];")];
    }
    lines
}

/// The same, for a call that may change them.
fn lent_words_lines(name: &str, words: &[u32]) -> Vec<String> {
    let set: Vec<String> = (words.iter().enumerate())
        .filter(|(_, &word)| word != 0)
        .map(|(at, word)| format!("{name}[{at}] = {word};"))
        .collect();
    let mut lines = vec![format!("let mut {name} = [0; 514];")];
    lines.extend(set.chunks(5).map(|some| some.join(" ")));
    lines
}

/// A byte string, or the bytes in hex where it would be hard to read.
fn bytes(list: &[u8]) -> String {
    if list
        .iter()
        .all(|b| b.is_ascii_graphic() || b" \n".contains(b))
    {
        format!("b\"{}\"", list.escape_ascii())
    } else {
        let hex: Vec<String> = list.iter().map(|b| format!("0x{b:02x}")).collect();
        format!("&[{}]", hex.join(", "))
    }
}

fn tuple(outcome: &Outcome) -> String {
    let values: Vec<String> = outcome.values.iter().map(i128::to_string).collect();
    format!("({}, {})", outcome.number, values.join(", "))
}

/// The places where two lots of output differ, for a comment.
fn differences<T: PartialEq + Display>(got: &[T], expected: &[T]) -> String {
    let all: Vec<String> = (got.iter().zip(expected).enumerate())
        .filter(|(_, (g, e))| g != e)
        .map(|(at, (g, _))| format!("[{at}] = {g}"))
        .collect();
    match all.len() {
        0 => "the same".to_string(),
        n if n > 8 => format!("{}, .. ({n} in all)", all[..8].join(", ")),
        _ => all.join(", "),
    }
}

/// The lines that make a room and its count, and the arguments that lend them.
fn lent_room(room: usize) -> (Vec<String>, String) {
    let (length, end) = (room + 2 * GUARD, room + GUARD);
    let lets = vec![
        format!("let mut out: [u8; {length}] = std::array::from_fn(|i| i as u8 ^ 0xa5);"),
        format!("let mut written = {FILL:#x};"),
    ];
    (lets, format!("&mut out[{GUARD}..{end}], &mut written"))
}

/// The lines that make a call and put what it returns into `got`.
fn call_lines(call: &Call, got: &str) -> Vec<String> {
    let name = call.name();
    let (lets, arguments, values) = match call {
        Call::Read(_, list) => (
            vec![
                "let mut out: [u32; 514] = std::array::from_fn(|i| i as u32 ^ 0xa5a5_a5a5);".into(),
                format!("let mut place = {FILL:#x};"),
            ],
            format!("{}, &mut out, &mut place", bytes(list)),
            "place",
        ),
        Call::Write(_, words, room) => {
            let (lets, lent) = lent_room(*room);
            (
                [words_lines("words", &words[..]), lets].concat(),
                format!("&words, {lent}"),
                "written",
            )
        }
        Call::Compare(one, other, room) => {
            let (lets, lent) = lent_room(*room);
            let (one, other) = (bytes(one), bytes(other));
            (lets, format!("{one}, {other}, {lent}"), "written")
        }
        Call::Longer(one, other) => {
            let (end, start) = (one.len(), one.len() + 1);
            let lists = bytes(&[one, &b" "[..], other].concat());
            let lets = vec![
                format!("let lists: &[u8] = {lists};"),
                format!("let mut part: &[u8] = {};", bytes(FILL_PART)),
            ];
            (
                lets,
                format!("&lists[..{end}], &lists[{start}..], &mut part"),
                "part.as_ptr() as isize - lists.as_ptr() as isize, part.len()",
            )
        }
        Call::Extends(longer, shorter) => {
            let mut lets = words_lines("longer", &longer[..]);
            lets.extend(words_lines("shorter", &shorter[..]));
            lets.push(format!("let mut yes = {:#x};", FILL as u8));
            (lets, "&longer, &shorter, &mut yes".to_string(), "yes")
        }
        Call::Replay(current, stored, trace, room) => {
            let (room, lent) = lent_room(*room);
            let mut lets = lent_words_lines("current", &current[..]);
            lets.extend(lent_words_lines("stored", &stored[..]));
            lets.extend(room);
            lets.push(format!("let mut used = {FILL:#x};"));
            let lent = lent.replace("&mut written", "&mut used, &mut written");
            (
                lets,
                format!("&mut current, &mut stored, {}, {lent}", bytes(trace)),
                "used, written",
            )
        }
        Call::ReplayEnd(left, room) => {
            let (lets, lent) = lent_room(*room);
            (lets, format!("{}, {lent}", bytes(left)), "written")
        }
        Call::Ask(words, question) => {
            let (first, second) = (question.first, question.second);
            let (fill, arguments, values) = match question.kind {
                Kind::Dtai => (
                    format!("let mut dtai = {FILL_DTAI:#x};"),
                    format!("{first}, &mut dtai"),
                    "dtai",
                ),
                Kind::TaiToUtc => (
                    format!("let (mut mjd, mut micros) = ({FILL:#x}, {FILL:#x});"),
                    format!("{first}, &mut mjd, &mut micros"),
                    "mjd, micros",
                ),
                _ => (
                    format!("let mut value = {FILL:#x};"),
                    format!("{first}, {second}, &mut value"),
                    "value",
                ),
            };
            let mut lets = words_lines("words", &words[..]);
            lets.push(fill);
            (lets, format!("&words, {arguments}"), values)
        }
    };
    let mut lines = lets;
    lines.push(format!("let number = leap::ffi::{name}({arguments});"));
    lines.push(format!("let {got} = (number, {values});"));
    lines
}

/// A writer's room with the list in it and all else as it was.
fn room_lines(outcome: &Outcome) -> Vec<String> {
    let length = outcome.bytes.len();
    // The count is the last of the numbers.
    let written = outcome.values.last().map_or(0, |&n| n as usize);
    let fill = format!("expected: [u8; {length}] = std::array::from_fn(|i| i as u8 ^ 0xa5);");
    if written == 0 {
        return vec![format!("let {fill}")];
    }
    let end = GUARD + written;
    let list = bytes(&outcome.bytes[GUARD..end]);
    vec![
        format!("let mut {fill}"),
        format!("expected[{GUARD}..{end}].copy_from_slice({list});"),
    ]
}

/// A call on which the programs differ; the second program's outcome is taken
/// as the one expected.
pub fn call(call: &Call) -> String {
    let (got, expected) = (archive(call), second(call));
    let mut lines = call_lines(call, "got");
    lines.push(format!(
        "assert_eq!(got, {}); // the archive gave {}",
        tuple(&expected),
        tuple(&got)
    ));
    let (lines_expected, differ) = match call {
        Call::Ask(..) | Call::Longer(..) | Call::Extends(..) => (Vec::new(), String::new()),
        Call::Read(..) => (
            words_lines("expected", &expected.words),
            differences(&got.words, &expected.words),
        ),
        Call::Write(..) | Call::Compare(..) | Call::Replay(..) | Call::ReplayEnd(..) => (
            room_lines(&expected),
            differences(&got.bytes, &expected.bytes),
        ),
    };
    if !lines_expected.is_empty() {
        lines.extend(lines_expected);
        lines.push(format!(
            "assert_eq!(out, expected); // the archive gave {differ}"
        ));
    }
    if let Call::Replay(..) = call {
        for (name, at) in [("current", 0..514), ("stored", 514..1_028)] {
            let differ = differences(&got.words[at.clone()], &expected.words[at.clone()]);
            lines.extend(words_lines("expected", &expected.words[at]));
            lines.push(format!(
                "assert_eq!({name}, expected); // the archive gave {differ}"
            ));
        }
    }
    test(&format!("{}_as_the_second_program", call.name()), lines)
}

/// A trace in pieces of these sizes, or at once, that does not print or leave
/// what the second program says of the whole.
pub fn day(day: &Day, sizes: &[usize]) -> String {
    let expected = day.by_second();
    let mut lines = words_lines("current", &day.current[..]);
    lines.extend(words_lines("stored", &day.stored[..]));
    lines.push("let [current, stored] = [current, stored].map(leap::Schedule::from_words);".into());
    lines.push("let mut day = leap::Replay::from_lists(current, stored);".into());
    lines.push("let mut printed = Vec::new();".into());
    lines.push(format!("let mut trace: &[u8] = {};", bytes(&day.trace)));
    lines.push(format!("for size in {sizes:?} {{"));
    lines.push("    day.feed(&trace[..size], &mut printed);".into());
    lines.push("    trace = &trace[size..];".into());
    lines.push("}".into());
    lines.push("day.feed(trace, &mut printed);".into());
    lines.push("day.end(&mut printed);".into());
    lines.push(format!(
        "assert_eq!(printed, {});",
        bytes(&expected.printed)
    ));
    for (name, words) in [("current", &expected.current), ("stored", &expected.stored)] {
        lines.extend(words_lines("expected", &words[..]));
        lines.push(format!("assert_eq!(day.{name}().words(), &expected);"));
    }
    test("a_day_as_the_second_program", lines)
}

/// A call, to be looked at before it is made.
pub fn made(call: &Call) -> String {
    test(call.name(), call_lines(call, "_got"))
}

/// The lines that make a call with many questions and put what it returns into
/// `count`.
fn many_lines(many: &Many, count: &str) -> Vec<String> {
    let array = |name: &str, fill: &str, length: usize| {
        format!("let mut {name} = [{fill}; {}];", length + 2 * EDGE)
    };
    let lent = |name: &str, length: usize| format!("&mut {name}[{EDGE}..{}]", EDGE + length);
    let (dtai, fill) = (format!("{FILL_DTAI:#x}i32"), format!("{FILL:#x}u64"));
    let (firsts, seconds) = (&many.firsts, &many.seconds);
    let numbers = lent("numbers", many.numbers);
    let (ones, twos) = (lent("ones", many.ones), lent("twos", many.twos));
    let mut lines = words_lines("words", &many.words[..]);
    let number = format!("{FILL_NUMBER:#x}u8");
    lines.push(array("numbers", &number, many.numbers));
    let arguments = match many.kind {
        Kind::Dtai => {
            lines.push(array("ones", &dtai, many.ones));
            format!("&{firsts:?}, {numbers}, {ones}")
        }
        Kind::TaiToUtc => {
            lines.push(array("ones", &fill, many.ones));
            lines.push(array("twos", &fill, many.twos));
            format!("&{firsts:?}, {numbers}, {ones}, {twos}")
        }
        _ => {
            lines.push(array("ones", &fill, many.ones));
            format!("&{firsts:?}, &{seconds:?}, {numbers}, {ones}")
        }
    };
    let name = many.name();
    lines.push(format!(
        "let {count} = leap::ffi::{name}(&words, {arguments});"
    ));
    lines
}

/// A call with many questions on which the programs differ.
pub fn many(many: &Many) -> String {
    let (got, expected) = (many.archive(), many.second());
    let claim = |name: &str, expected: String, got: String| {
        format!("assert_eq!({name}, {expected}); // the archive gave {got}")
    };
    let mut lines = many_lines(many, "count");
    lines.push(claim(
        "count",
        expected.count.to_string(),
        got.count.to_string(),
    ));
    lines.push(claim(
        "numbers",
        format!("{:?}", expected.numbers),
        differences(&got.numbers, &expected.numbers),
    ));
    lines.push(claim(
        "ones",
        format!("{:?}", expected.ones),
        differences(&got.ones, &expected.ones),
    ));
    if many.kind == Kind::TaiToUtc {
        lines.push(claim(
            "twos",
            format!("{:?}", expected.twos),
            differences(&got.twos, &expected.twos),
        ));
    }
    test(&format!("{}_as_the_second_program", many.name()), lines)
}

/// A call with many questions, to be looked at before it is made.
pub fn many_made(many: &Many) -> String {
    test(many.name(), many_lines(many, "_count"))
}

/// Two calls that one program answers against demand 3.
fn two_calls(name: &str, calls: &[Call; 2], program: Program, claim: [&str; 2]) -> String {
    let mut lines = Vec::new();
    for (call, got) in calls.iter().zip(["first", "other"]) {
        lines.extend(call_lines(call, got));
        lines.push(format!("// {}", tuple(&program(call))));
    }
    lines.extend(claim.map(String::from));
    test(name, lines)
}

/// An answer that is not kept under a longer list.
pub fn not_kept(pair: &Pair, program: Program) -> String {
    let claim = [
        "// The first list extends the other: answers, 8 and 9 stay, and 10 becomes 0, 9 or 10.",
        "assert!(first == other || (other.0 == 10 && [0, 9, 10].contains(&first.0)));",
    ];
    two_calls("extension_keeps_answers", &pair.calls(), program, claim)
}

/// Two lists, of which neither extends the other, without a DTAI to tell them
/// apart.
pub fn not_parted(pair: &Pair, program: Program) -> String {
    let Some(calls) = pair.parting_calls() else {
        let mut lines = words_lines("one", &pair.longer[..]);
        lines.extend(words_lines("other", &pair.shorter[..]));
        lines.push("// Neither extends the other, and no month parts them.".into());
        return test("contradictions_show", lines);
    };
    let claim = [
        "// Neither list extends the other.",
        "assert!((first.0, other.0) == (0, 0) && first.1 != other.1);",
    ];
    two_calls("contradictions_show", &calls, program, claim)
}
