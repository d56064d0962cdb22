//! What is timed.

use std::cell::RefCell;
use std::hint::black_box;
use std::ops::Deref;

use leap::ffi::{self, Words};
use second::Raw;

use crate::baseline;
use crate::day::Day;
use crate::erfa;
use crate::instants::COUNT;
use crate::lists::{List, Two};
use crate::measure::{measure, Case, Timed};
use crate::questions::{ask, Instants, Outputs, Program, Question};

pub const ARCHIVE: &str = "archive";
pub const PREPARED_ANEW: &str = "baseline, prepared anew";
pub const READ_TEXT: &str = "read text";
pub const COMPARE_LARGEST: &str = "compare 256";
pub const COMPARE_B: &str = "compare B";
pub const LONGER_B: &str = "longer of B";
pub const REPLAY: &str = "replay";

/// Calls in a round of reading or writing a list, or of comparing two.
const LIST_CALLS: usize = 256;

/// Every question about every instant of a set, by every program and by ERFA
/// where it is asked for.
pub fn questions(set: &Instants, programs: &[&dyn Program], with_erfa: bool) -> Vec<Timed> {
    let out = RefCell::new(Outputs::untouched(COUNT));
    let out = &out;
    let mut erfa = if with_erfa {
        erfa::cases(set)
    } else {
        Vec::new()
    };
    let mut cases = Vec::new();
    for question in Question::ALL {
        cases.extend(programs.iter().map(|&program| Case {
            what: question.name(),
            program: program.name(),
            calls: COUNT,
            round: Box::new(move || {
                let out = &mut *out.borrow_mut();
                ask(program, question, black_box(set), out);
                black_box(out);
            }),
        }));
        let own = erfa.extract_if(.., |case| case.what == question.name());
        cases.extend(own);
    }
    measure(cases)
}

/// UTC to TAI by calls with few instants. The baseline is also timed with the
/// list prepared within each call, as a call of the archive has to.
pub fn few(words: &Words, set: &Instants, programs: &[&dyn Program]) -> Vec<Timed> {
    let out = RefCell::new(Outputs::untouched(COUNT));
    let out = &out;
    let mut cases = Vec::new();
    for (what, size) in [("1", 1), ("10", 10), ("100", 100)] {
        let calls = COUNT / size;
        cases.extend(programs.iter().map(|&program| Case {
            what,
            program: program.name(),
            calls,
            round: Box::new(move || in_parts(set, size, &mut out.borrow_mut(), || program)),
        }));
        cases.push(Case {
            what,
            program: PREPARED_ANEW,
            calls,
            round: Box::new(move || {
                let anew = || baseline::prepared(black_box(words));
                in_parts(set, size, &mut out.borrow_mut(), anew);
            }),
        });
    }
    measure(cases)
}

/// UTC to TAI of a set, so many instants a call, each call by a program made
/// for it.
fn in_parts<P>(set: &Instants, size: usize, out: &mut Outputs, make: impl Fn() -> P)
where
    P: Deref,
    P::Target: Program,
{
    let asked = set
        .mjd
        .chunks_exact(size)
        .zip(set.micros.chunks_exact(size));
    let numbers = out.numbers.chunks_exact_mut(size);
    let answers = numbers.zip(out.values.chunks_exact_mut(size));
    for ((mjd, micros), (numbers, tai)) in asked.zip(answers) {
        make().utc_to_tai(mjd, micros, numbers, tai);
    }
    black_box(out);
}

/// Both formats of a list, read and written by archive and second program.
pub fn formats(list: &List) -> Vec<Timed> {
    let raw = &Raw::from_words(&list.words);
    let (text, nybbles, words) = (&list.text, &list.nybbles, &list.words);
    measure(vec![
        reading(READ_TEXT, text, ffi::read_text),
        second_reading(READ_TEXT, text, second::read_text),
        writing("write text", words, ffi::write_text),
        second_writing("write text", raw, second::write_text),
        reading("read nybbles", nybbles, ffi::read_nybbles),
        second_reading("read nybbles", nybbles, second::read_nybbles),
        writing("write nybbles", words, ffi::write_nybbles),
        second_writing("write nybbles", raw, second::write_nybbles),
    ])
}

/// The largest lists compared, list B compared with itself, and the longer of
/// list B and itself, by archive and second program.
pub fn two_lists<'a>(largest: &'a Two, b: &'a Two) -> Vec<Timed> {
    measure(vec![
        comparing(COMPARE_LARGEST, largest),
        second_comparing(COMPARE_LARGEST, largest),
        comparing(COMPARE_B, b),
        second_comparing(COMPARE_B, b),
        choosing(LONGER_B, b),
        second_choosing(LONGER_B, b),
    ])
}

/// A day replayed by archive and second program, a call being a line.
pub fn replay(day: &Day) -> Vec<Timed> {
    fn case<'a>(day: &'a Day, program: &'static str, replay: fn(&Day, &mut Vec<u8>)) -> Case<'a> {
        let mut out = Vec::new();
        Case {
            what: REPLAY,
            program,
            calls: day.lines,
            round: Box::new(move || {
                replay(black_box(day), &mut out);
                black_box(&mut out);
            }),
        }
    }
    measure(vec![
        case(day, ARCHIVE, Day::by_archive),
        case(day, crate::programs::SECOND, Day::by_second),
    ])
}

/// A round of calls to read or write a list, or to compare two.
fn list_case<'a>(
    what: &'static str,
    program: &'static str,
    mut call: impl FnMut() + 'a,
) -> Case<'a> {
    Case {
        what,
        program,
        calls: LIST_CALLS,
        round: Box::new(move || (0..LIST_CALLS).for_each(|_| call())),
    }
}

type Read = fn(&[u8], &mut Words, &mut u64) -> u8;

fn reading<'a>(what: &'static str, bytes: &'a [u8], read: Read) -> Case<'a> {
    let (mut words, mut place) = ([0; 514], 0);
    list_case(what, ARCHIVE, move || {
        black_box(read(black_box(bytes), &mut words, &mut place));
        black_box((&mut words, &mut place));
    })
}

type SecondRead = fn(&[u8]) -> second::Reading;

fn second_reading<'a>(what: &'static str, bytes: &'a [u8], read: SecondRead) -> Case<'a> {
    list_case(what, crate::programs::SECOND, move || {
        black_box(read(black_box(bytes)));
    })
}

type Write = fn(&Words, &mut [u8], &mut u64) -> u8;

fn writing<'a>(what: &'static str, words: &'a Words, write: Write) -> Case<'a> {
    let (mut out, mut written) = ([0; 752], 0);
    list_case(what, ARCHIVE, move || {
        black_box(write(black_box(words), &mut out, &mut written));
        black_box((&mut out, &mut written));
    })
}

type SecondWrite = fn(&Raw, &mut [u8]) -> (u8, u64);

fn second_writing<'a>(what: &'static str, raw: &'a Raw, write: SecondWrite) -> Case<'a> {
    let mut out = [0; 752];
    list_case(what, crate::programs::SECOND, move || {
        black_box(write(black_box(raw), &mut out));
        black_box(&mut out);
    })
}

fn comparing<'a>(what: &'static str, lists: &'a Two) -> Case<'a> {
    let (mut out, mut written) = ([0; 4633], 0);
    list_case(what, ARCHIVE, move || {
        let (first, second) = black_box((lists.first.as_bytes(), lists.second.as_bytes()));
        black_box(ffi::compare_text(first, second, &mut out, &mut written));
        black_box((&mut out, &mut written));
    })
}

fn second_comparing<'a>(what: &'static str, lists: &'a Two) -> Case<'a> {
    let mut out = [0; 4633];
    list_case(what, crate::programs::SECOND, move || {
        let (first, second) = black_box((lists.first.as_bytes(), lists.second.as_bytes()));
        black_box(second::compare_text(first, second, &mut out));
        black_box(&mut out);
    })
}

fn choosing<'a>(what: &'static str, lists: &'a Two) -> Case<'a> {
    list_case(what, ARCHIVE, move || {
        let (first, second) = black_box((lists.first.as_bytes(), lists.second.as_bytes()));
        let mut part = &first[..0];
        black_box(ffi::longer_text(first, second, &mut part));
        black_box(part);
    })
}

fn second_choosing<'a>(what: &'static str, lists: &'a Two) -> Case<'a> {
    list_case(what, crate::programs::SECOND, move || {
        let (first, second) = black_box((lists.first.as_bytes(), lists.second.as_bytes()));
        black_box(second::longer_text(first, second));
    })
}
