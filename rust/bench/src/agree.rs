//! What is compared before anything is timed: every program's answer to every
//! question about every instant, the lists read and written, two lists compared
//! with each other, and a day replayed.

use leap::ffi;
use second::Raw;

use crate::day::Day;
use crate::lists::{List, Two};
use crate::questions::{ask, Instants, Outputs, Program, Question};

/// How many of the answers had which number. An error names the first instant on
/// which a program differs from the first one.
pub fn questions(
    list: &List,
    set: &Instants,
    programs: &[&dyn Program],
) -> Result<Vec<String>, String> {
    let mut refused = [0; 256];
    for question in Question::ALL {
        let mut all = programs.iter().map(|program| {
            let mut out = Outputs::untouched(set.mjd.len());
            ask(*program, question, set, &mut out);
            (program.name(), out)
        });
        let Some((first, expected)) = all.next() else {
            break;
        };
        for (other, answers) in all {
            if let Some(at) = difference(&expected, &answers) {
                let place = format!("{}, {}, {}", list.name, set.name, question.name());
                let instant = instant(set, at);
                let (a, b) = (answer(&expected, at), answer(&answers, at));
                return Err(format!("{place}, {instant}: {first} {a}, {other} {b}"));
            }
        }
        for &number in &expected.numbers {
            refused[usize::from(number)] += 1;
        }
    }
    let counts = refused.iter().enumerate().filter(|&(_, &count)| count > 0);
    Ok(counts
        .map(|(number, count)| format!("{count} had {number}"))
        .collect())
}

fn difference(a: &Outputs, b: &Outputs) -> Option<usize> {
    (0..a.numbers.len()).find(|&at| {
        (a.numbers[at], a.dtai[at], a.values[at], a.micros[at])
            != (b.numbers[at], b.dtai[at], b.values[at], b.micros[at])
    })
}

fn instant(set: &Instants, at: usize) -> String {
    format!(
        "MJD {} micros {} nanos {} TAI {}",
        set.mjd[at], set.micros[at], set.nanos[at], set.tai[at]
    )
}

fn answer(out: &Outputs, at: usize) -> String {
    format!(
        "gives number {} (DTAI {}, values {} and {})",
        out.numbers[at], out.dtai[at], out.values[at], out.micros[at]
    )
}

/// Both formats of a list, read and written by archive and second program.
pub fn formats(list: &List) -> Result<(), String> {
    let raw = Raw::from_words(&list.words);
    for (format, bytes) in [("text", &list.text), ("nybbles", &list.nybbles)] {
        let (mut words, mut place) = ([u32::MAX; 514], u64::MAX);
        let (mut ours, mut theirs) = ([0; 752], [0; 752]);
        let mut length = u64::MAX;
        let (read, written, reading, writing) = if format == "text" {
            (
                ffi::read_text(bytes, &mut words, &mut place),
                ffi::write_text(&list.words, &mut ours, &mut length),
                second::read_text(bytes),
                second::write_text(&raw, &mut theirs),
            )
        } else {
            (
                ffi::read_nybbles(bytes, &mut words, &mut place),
                ffi::write_nybbles(&list.words, &mut ours, &mut length),
                second::read_nybbles(bytes),
                second::write_nybbles(&raw, &mut theirs),
            )
        };
        let same_reading = (read, place) == (reading.number, reading.place)
            && words == reading.schedule.to_words();
        if !same_reading {
            return Err(format!("{}: the {format} reads differently", list.name));
        }
        if (written, length) != writing || ours != theirs || !ours.starts_with(bytes) {
            return Err(format!("{}: the {format} is written otherwise", list.name));
        }
    }
    Ok(())
}

/// The comparison of two lists and the longer of them, by archive and second
/// program; gives how many bytes the comparison has.
pub fn two(lists: &Two) -> Result<usize, String> {
    let (first, second) = (lists.first.as_bytes(), lists.second.as_bytes());
    let (mut ours, mut theirs, mut length) = ([0; 4633], [0; 4633], u64::MAX);
    let number = ffi::compare_text(first, second, &mut ours, &mut length);
    if (number, length) != second::compare_text(first, second, &mut theirs) || ours != theirs {
        return Err(format!("{}: compared differently", lists.name));
    }
    let mut part = &first[..0];
    let number = ffi::longer_text(first, second, &mut part);
    let (by_second, expected) = second::longer_text(first, second);
    if (number, part.as_ptr_range()) != (by_second, expected.as_ptr_range()) {
        return Err(format!("{}: another list is the longer", lists.name));
    }
    Ok(length as usize)
}

/// What a day's trace prints, by archive and second program; gives how many bytes.
pub fn day(day: &Day) -> Result<usize, String> {
    let (mut ours, mut theirs) = (Vec::new(), Vec::new());
    day.by_archive(&mut ours);
    day.by_second(&mut theirs);
    if ours != theirs {
        return Err("a day is replayed differently".to_string());
    }
    Ok(ours.len())
}
