//! `compare [CALLS [SEED]]` makes the same calls of the proved archive and of the
//! second program, and compares all that they return and every byte and word
//! that they may change. What the archive is asked in one call, the second
//! program is asked one by one. Where they differ it prints the smallest case
//! that it finds, as a test to paste, and ends with status 1.
//!
//! The calls follow from the seed alone. With COMPARE_TRACE set, each is shown
//! before it is made: the last one shown is the one that stopped the program.

mod call;
mod days;
mod edits;
mod expiries;
mod lists;
mod malformed;
mod many;
mod pairs;
mod paste;
mod random;
mod replays;
mod schedules;
mod shrink;
mod smaller;
mod sources;
mod tally;
mod texts;
mod times;
mod traces;

use std::process::ExitCode;

use call::{archive, second, Call, Format, Kind, Outcome, Program, Question};
use many::Many;
use pairs::Pair;
use random::Random;
use replays::{Day, Ended, Playing};
use shrink::shrink;
use sources::Make::{Contradiction, Extension, From, List, Trace, Two, Words};
use sources::{Cuts, Make, MakePair, SOURCES};
use tally::{Tally, ANY_LIST, EVERY_ROOM, LONGEST, TWO_LISTS};
use tally::{BYTE_BY_BYTE, CUT_EVERYWHERE, CUT_SHORT, EMPTY_TRACES, TRACES, WITHOUT_LF};
use texts::COMPARISON_ROOM;

const CALLS: u64 = 1_300_000;
const SEED: u64 = 1972;

/// Both programs, by name.
const PROGRAMS: [(&str, Program); 2] = [("the archive", archive), ("the second program", second)];

/// Compares the outcomes of a call, and counts it.
fn compare(call: &Call, tally: &mut Tally) -> Result<(), String> {
    compared(call, tally).map(|_| ())
}

/// Compares the outcomes of a call, counts it, and gives the one of both.
fn compared(call: &Call, tally: &mut Tally) -> Result<Outcome, String> {
    if std::env::var_os("COMPARE_TRACE").is_some() {
        eprint!("{}", paste::made(call));
    }
    let expected = second(call);
    if archive(call) != expected {
        let smallest = shrink(call.clone(), Call::differs);
        return Err(format!(
            "the programs differ:\n\n{}",
            paste::call(&smallest)
        ));
    }
    tally.count(call, &expected);
    Ok(expected)
}

/// Asks the questions once more, those of each kind in one call.
fn compare_many(
    words: &leap::ffi::Words,
    questions: &[Question],
    random: &mut Random,
    tally: &mut Tally,
) -> Result<(), String> {
    for kind in Kind::ALL {
        if questions.iter().all(|q| q.kind != kind) {
            continue;
        }
        let many = Many::of(words, kind, questions, random);
        if std::env::var_os("COMPARE_TRACE").is_some() {
            eprint!("{}", paste::many_made(&many));
        }
        let expected = many.second();
        if many.archive() != expected {
            let test = paste::many(&shrink(many, Many::differs));
            return Err(format!("the programs differ:\n\n{test}"));
        }
        tally.add_many(many.name(), many.answered(&expected));
    }
    Ok(())
}

/// Asks whether a schedule extends another, and the other way round.
fn compare_extension(
    one: &leap::ffi::Words,
    other: &leap::ffi::Words,
    tally: &mut Tally,
) -> Result<(), String> {
    if let Some(met) = expiries::in_one_month(one, other) {
        tally.meet(met);
    }
    let (one, other) = (Box::new(*one), Box::new(*other));
    compare(&Call::Extends(one.clone(), other.clone()), tally)?;
    compare(&Call::Extends(other, one), tally)
}

/// Writes a schedule into rooms about its length, and asks it questions.
fn use_words(
    words: &leap::ffi::Words,
    random: &mut Random,
    tally: &mut Tally,
) -> Result<(), String> {
    for kind in expiries::kinds(words) {
        tally.meet(kind);
    }
    for format in [Format::Text, Format::Nybbles] {
        let list = second(&Call::Write(format, Box::new(*words), ANY_LIST));
        let length = list.values[0] as usize;
        let near = [
            length,
            length,
            length.saturating_sub(1),
            length + 1,
            ANY_LIST,
        ];
        let room = match random.below(6) {
            0 => random.below(length + 1),
            _ => random.pick(&near),
        };
        compare(&Call::Write(format, Box::new(*words), room), tally)?;
    }
    let questions = times::kinds(random).map(|kind| times::question(random, words, kind));
    for question in questions {
        compare(&Call::Ask(Box::new(*words), question), tally)?;
    }
    compare_many(words, &questions, random, tally)?;
    match random.below(4) {
        0 => compare_extension(words, words, tally),
        _ => compare_extension(words, &schedules::any(random), tally),
    }
}

/// Asks the longer and the shorter list the same, and holds demand 3 to it.
fn use_extension(make: MakePair, random: &mut Random, tally: &mut Tally) -> Result<(), String> {
    let (longer, shorter) = make(random);
    let questions = times::kinds(random).map(|kind| {
        let edge_of = if random.one_in(3) { &longer } else { &shorter };
        times::question(random, edge_of, kind)
    });
    for question in questions {
        let pair = Pair {
            question,
            longer: longer.clone(),
            shorter: shorter.clone(),
        };
        for call in pair.calls() {
            compare(&call, tally)?;
        }
        for (name, program) in PROGRAMS {
            if pair.broken(program) {
                let smallest = shrink(pair, |p| p.broken(program));
                let test = paste::not_kept(&smallest, program);
                return Err(format!("{name} does not keep an answer:\n\n{test}"));
            }
        }
    }
    compare_many(&longer, &questions, random, tally)?;
    compare_many(&shorter, &questions, random, tally)?;
    compare_extension(&longer, &shorter, tally)
}

/// Asks two contradicting lists for the DTAI by which they part.
fn use_contradiction(make: MakePair, random: &mut Random, tally: &mut Tally) -> Result<(), String> {
    let (one, other) = make(random);
    for call in Pair::of(&one, &other).parting_calls().iter().flatten() {
        compare(call, tally)?;
    }
    for (name, program) in PROGRAMS {
        let pair = Pair::of(&one, &other);
        if pair.not_parted(program) {
            let smallest = shrink(pair, |p| p.not_parted(program));
            let test = paste::not_parted(&smallest, program);
            return Err(format!("{name} does not tell two lists apart:\n\n{test}"));
        }
    }
    compare_extension(&one, &other, tally)
}

/// Compares two text lists with each other, into rooms about what they need or
/// into every one up to that, and asks for the longer and for extension.
fn use_two(kind: &texts::Kind, random: &mut Random, tally: &mut Tally) -> Result<(), String> {
    let two = (kind.make)(random);
    if !(kind.is)(&two) {
        let (one, other) = (two.0.escape_ascii(), two.1.escape_ascii());
        return Err(format!("two lists of another kind: {one} and {other}"));
    }
    let length = texts::compared_length(&two.0, &two.1);
    let rooms = texts::rooms(random, length);
    for room in &rooms {
        compare(&Call::Compare(two.0.clone(), two.1.clone(), *room), tally)?;
    }
    tally.meet(TWO_LISTS);
    if rooms.len() > 1 {
        tally.meet(EVERY_ROOM);
    }
    if length == COMPARISON_ROOM {
        tally.meet(LONGEST);
    }
    compare(&Call::Longer(two.0.clone(), two.1.clone()), tally)?;
    match (texts::meant(&two.0), texts::meant(&two.1)) {
        (Some(one), Some(other)) => compare_extension(&one, &other, tally),
        _ => Ok(()),
    }
}

/// Replays a day in pieces of these sizes, as the header's loop does, into rooms
/// of any size.
fn play(
    day: &Day,
    sizes: &[usize],
    random: &mut Random,
    tally: &mut Tally,
) -> Result<Ended, String> {
    let mut playing = Playing::of(day);
    let mut rest = &day.trace[..];
    for &size in sizes {
        let piece;
        (piece, rest) = rest.split_at(size);
        playing.read(piece);
        loop {
            let outcome = compared(&playing.call(traces::room(random)), tally)?;
            playing = playing.after(&outcome);
            if outcome.number == 0 && outcome.values[0] == 0 {
                break;
            }
        }
        if playing.keep() {
            tally.meet(CUT_SHORT);
        }
    }
    loop {
        let outcome = compared(&playing.end_call(traces::end_room(random)), tally)?;
        if outcome.number == 0 {
            return Ok(playing.ended(&outcome));
        }
    }
}

/// Counts the lines of a day by their kinds. Cut at each line end it prints what
/// it prints at once.
fn count_lines(day: &Day, whole: &Ended, tally: &mut Tally) -> Result<(), String> {
    let printed = day.line_by_line(|line, printed| {
        for (name, is) in replays::KINDS {
            if is(line, printed) {
                tally.meet(name);
            }
        }
    });
    tally.meet(TRACES);
    if day.trace.is_empty() {
        tally.meet(EMPTY_TRACES);
    }
    if !day.left().is_empty() {
        tally.meet(WITHOUT_LF);
    }
    if printed != whole.printed {
        return Err(format!(
            "line by line the second program prints other lines:\n\n{}",
            paste::day(day, &[])
        ));
    }
    Ok(())
}

/// Replays a trace at once, and in pieces, which must come to the same.
fn use_day(day: Day, cuts: Cuts, random: &mut Random, tally: &mut Tally) -> Result<(), String> {
    compare(&day.whole(), tally)?;
    let whole = day.by_second();
    count_lines(&day, &whole, tally)?;
    let length = day.trace.len();
    let ways: Vec<Vec<usize>> = match cuts {
        Cuts::Some => vec![traces::pieces(random, length)],
        Cuts::All => {
            tally.meet(CUT_EVERYWHERE);
            tally.meet(BYTE_BY_BYTE);
            let in_two = (0..=length).map(|cut| vec![cut, length - cut]);
            in_two.chain([vec![1; length]]).collect()
        }
    };
    for sizes in ways {
        if play(&day, &sizes, random, tally)? != whole {
            let test = paste::day(&day, &sizes);
            return Err(format!(
                "in pieces a trace prints other lines, or ends with other lists:\n\n{test}"
            ));
        }
    }
    Ok(())
}

fn use_source(make: &Make, random: &mut Random, tally: &mut Tally) -> Result<(), String> {
    match *make {
        List(format, make) => compare(&Call::Read(format, make(random)), tally),
        Words(make) => use_words(&make(random), random, tally),
        Extension(make) => use_extension(make, random, tally),
        Contradiction(make) => use_contradiction(make, random, tally),
        Two(ref kind) => use_two(kind, random, tally),
        Trace(cuts, make) => {
            let (current, stored) = (traces::start(random), traces::start(random));
            let trace = make(random);
            let day = Day {
                current,
                stored,
                trace,
            };
            use_day(day, cuts, random, tally)
        }
        From(cuts, make) => use_day(make(random), cuts, random, tally),
    }
}

/// Goes through the sources, each by its share, until there are enough calls.
fn run(calls: u64, seed: u64) -> Result<Tally, String> {
    let mut random = Random::new(seed);
    let mut tally = Tally::new(SOURCES.iter().map(|s| s.name));
    while tally.total() < calls {
        for (at, source) in SOURCES.iter().enumerate() {
            tally.turn(at);
            let due = tally.calls() + source.share * 12;
            while tally.calls() < due {
                use_source(&source.make, &mut random, &mut tally).map_err(|why| {
                    format!("{}, after {} calls: {why}", source.name, tally.total())
                })?;
            }
        }
    }
    Ok(tally)
}

fn arguments() -> Option<(u64, u64)> {
    let numbers: Option<Vec<u64>> = std::env::args().skip(1).map(|a| a.parse().ok()).collect();
    match numbers?[..] {
        [] => Some((CALLS, SEED)),
        [calls] => Some((calls, SEED)),
        [calls, seed] => Some((calls, seed)),
        _ => None,
    }
}

fn main() -> ExitCode {
    let Some((calls, seed)) = arguments() else {
        eprintln!("usage: compare [CALLS [SEED]]");
        return ExitCode::from(2);
    };
    match run(calls, seed) {
        Ok(tally) => {
            print!("{tally}");
            let missing = tally.missing();
            if !missing.is_empty() {
                println!("too few calls: no {}", missing.join(", no "));
                return ExitCode::FAILURE;
            }
            println!("compared {} calls: all equal", tally.total());
            ExitCode::SUCCESS
        }
        Err(why) => {
            println!("seed {seed}: {why}");
            ExitCode::FAILURE
        }
    }
}
