//! Traces of a branch's day, whole and damaged, the lists that a day starts
//! from, and the pieces that a trace comes in.

use leap::ffi::Words;

use crate::call::Kind;
use crate::lists::text;
use crate::random::Random;
use crate::replays::Day;
use crate::schedules::{self, expiry_month, leaps_of, on_a_first, to_month};
use crate::{malformed, pairs, times};

/// A line of at most so many bytes may be one.
const LONGEST_LINE: usize = 4_096;

/// The most bytes of a trace that is cut at every one of them.
const SHORT: usize = 48;

/// Lines that are none.
const NO_LINES: [&[u8]; 24] = [
    b"",
    b" ",
    b"#",
    b"L",
    b"S ",
    b"Z ",
    b"S\r",
    b"Z\r",
    b" S",
    b"s",
    b"z",
    b"l 5?",
    b"q 41498 0",
    b"SS",
    b"ZS",
    b"S 5?",
    b"L\t5?",
    b"Q",
    b"Q ",
    b"Q 41498",
    b"\r",
    b"\0",
    b"\xff",
    b"20",
];

/// What a list knows up to a month. The list extends it.
fn known_up_to(list: &Words, expiry: u32) -> Box<Words> {
    let mut leaps = leaps_of(list);
    leaps.retain(|leap| leap.0 < expiry);
    to_month(&leaps, expiry)
}

/// Lists of which one of any two extends the other.
fn extending(random: &mut Random) -> Vec<Words> {
    let longest = schedules::readable(random);
    let mut lists: Vec<Words> = (0..random.below(4))
        .map(|_| *known_up_to(&longest, random.from(1, expiry_month(&longest))))
        .collect();
    lists.push(*longest);
    lists
}

/// Lists that mostly contradict each other.
fn unrelated(random: &mut Random) -> Vec<Words> {
    (0..random.from(1, 4))
        .map(|_| *schedules::readable(random))
        .collect()
}

/// A number of that many digits at least, with zeros before it.
fn digits(number: u64, least: usize) -> Vec<u8> {
    format!("{number:0least$}").into_bytes()
}

/// A Q near the edges of a list, its numbers now and then of many digits.
fn question(random: &mut Random, list: &Words) -> Vec<u8> {
    let asked = times::question(random, list, Kind::UtcToUts);
    let [mjd, micros] = [asked.first, asked.second].map(|number| {
        let least = match random.below(8) {
            0 => random.pick(&[2, 12, 17, 18, 18, 19, 20, 21, 40]),
            _ => 1,
        };
        digits(number, least)
    });
    [b"Q ", &mjd[..], b" ", &micros[..]].concat()
}

/// A line that uses one of these lists.
fn used(random: &mut Random, lists: &[Words]) -> Vec<u8> {
    let list = random.pick(lists);
    [b"L ", &text::of(&list)[..]].concat()
}

/// A line of a day over these lists.
fn line(random: &mut Random, lists: &[Words]) -> Vec<u8> {
    let list = random.pick(lists);
    match random.below(10) {
        0 | 1 => used(random, lists),
        2 => b"S".to_vec(),
        3 => b"Z".to_vec(),
        _ => question(random, &list),
    }
}

/// A line with some of its bytes damaged, or one that is none.
fn damaged(random: &mut Random, mut line: Vec<u8>) -> Vec<u8> {
    let at = random.below(line.len() + 1);
    match random.below(10) {
        0 => line.push(b' '),
        1 => line.push(b'\r'),
        2 => line.insert(at, b' '),
        3 => line.insert(at, random.pick(b"\r\t\0\x7f\x80\xff#LSZQ0")),
        4 => line.make_ascii_lowercase(),
        5 => line.truncate(at),
        6 => return random.pick(&NO_LINES).to_vec(),
        // A double space, or a tab for one.
        7 => {
            if let Some(space) = line.iter().position(|&b| b == b' ') {
                line.splice(
                    space..=space,
                    random.pick(&[&b"  "[..], b"\t", b""]).to_vec(),
                );
            }
        }
        _ => line = text::damaged(random, line),
    }
    line
}

/// A line that uses a list that mostly does not read.
fn refused(random: &mut Random) -> Vec<u8> {
    let make = random.pick(&[text::broken, text::limit, text::random]);
    [b"L ", &make(random)[..]].concat()
}

/// A line of about the longest that may be one, or longer.
fn long(random: &mut Random, lists: &[Words]) -> Vec<u8> {
    let any = random.from(4_000, 9_000) as usize;
    let near = [
        LONGEST_LINE - 1,
        LONGEST_LINE,
        LONGEST_LINE + 1,
        LONGEST_LINE + 2,
    ];
    let size = random.pick(&[near[0], near[1], near[1], near[2], near[2], near[3], any]);
    let start = match random.below(6) {
        0 => used(random, lists),
        1 => b"L 1+".to_vec(),
        2 => b"L ".to_vec(),
        3 => b"Q 41498 ".to_vec(),
        4 => random.pick(&[&b"S"[..], b"Z", b"Q "]).to_vec(),
        _ => Vec::new(),
    };
    let filler = random.pick(&[&b"1"[..], b"0", b"1+", b" ", b"x", b"\0"]);
    let filled = start.iter().chain(filler.iter().cycle());
    filled.take(size).copied().collect()
}

/// Lines joined to a trace, the last at times without its LF.
fn joined(random: &mut Random, lines: Vec<Vec<u8>>) -> Vec<u8> {
    let mut trace = Vec::new();
    for line in lines {
        // A line may hold an LF by damage, and is then two.
        trace.extend(line);
        trace.push(b'\n');
    }
    if random.one_in(6) {
        trace.pop();
    }
    trace
}

fn day_over(random: &mut Random, lists: &[Words], spoilt: usize) -> Vec<u8> {
    let count = random.pick(&[1, 2, 4, 8, 12, 24]);
    let mut lines = Vec::with_capacity(count);
    // Mostly a day starts with a list.
    if !random.one_in(4) {
        lines.push(used(random, lists));
    }
    for _ in 0..count {
        let mut next = line(random, lists);
        if random.below(10) < spoilt {
            next = match random.one_in(3) {
                true => refused(random),
                false => damaged(random, next),
            };
        }
        lines.push(next);
    }
    joined(random, lines)
}

/// A day whose lists extend each other.
pub fn extended_day(random: &mut Random) -> Vec<u8> {
    let lists = extending(random);
    day_over(random, &lists, 0)
}

/// A day whose lists mostly contradict each other.
pub fn contradicting_day(random: &mut Random) -> Vec<u8> {
    let lists = unrelated(random);
    day_over(random, &lists, 1)
}

/// A day that starts from a list with any expiry, and maybe stores one that it
/// extends. Most questions are near the edges of these, and a list that is used is
/// the same with its expiry on the first of a month.
pub fn held_day(random: &mut Random) -> Day {
    let (current, stored) = match random.below(3) {
        0 => pairs::extended(random),
        1 => pairs::cut_short(random),
        _ => (schedules::edged(random), schedules::any(random)),
    };
    let mut lines = Vec::new();
    for _ in 0..random.pick(&[4, 8, 12]) {
        let list = random.pick(&[&current, &stored]).clone();
        lines.push(match random.below(10) {
            0 => used(random, &[*on_a_first(&list)]),
            1 => b"S".to_vec(),
            2 => b"Z".to_vec(),
            _ => question(random, &list),
        });
    }
    Day {
        current,
        stored,
        trace: joined(random, lines),
    }
}

/// A day about half of whose lines are damaged.
pub fn damaged_day(random: &mut Random) -> Vec<u8> {
    let lists = unrelated(random);
    day_over(random, &lists, 5)
}

/// A day with a line, or a few, of about the longest length and more.
pub fn long_lines(random: &mut Random) -> Vec<u8> {
    let lists = extending(random);
    let lines = (0..random.from(1, 4))
        .map(|_| match random.below(3) {
            0 => line(random, &lists),
            _ => long(random, &lists),
        })
        .collect();
    joined(random, lines)
}

/// Bytes that are mostly those of lines, or any.
pub fn random_bytes(random: &mut Random) -> Vec<u8> {
    let any = random.one_in(3);
    let byte = |random: &mut Random| match any {
        true => random.bits() as u8,
        false => random.pick(b"LSZQ  \n\n0123456789+-?\r\0\xff"),
    };
    (0..random.below(120)).map(|_| byte(random)).collect()
}

/// A trace of few bytes, which is then cut at every one of them.
pub fn short(random: &mut Random) -> Vec<u8> {
    loop {
        let lists = [*on_a_first(&schedules::known(random))];
        let lines: Vec<Vec<u8>> = (0..random.below(6))
            .map(|_| match random.below(6) {
                0 => random.pick(&NO_LINES).to_vec(),
                1 => b"L 6+5?".to_vec(),
                2 => b"Q 41498 86400000000".to_vec(),
                _ => line(random, &lists),
            })
            .collect();
        let trace = joined(random, lines);
        if trace.len() <= SHORT {
            return trace;
        }
    }
}

/// Words that a day starts from: blank, a list, or words that stand for none.
pub fn start(random: &mut Random) -> Box<Words> {
    let bad = [
        malformed::bad_count,
        malformed::bad_sign,
        malformed::bad_month,
        malformed::bad_unused,
        malformed::bad_gap,
        malformed::bad_expiry,
        malformed::no_expiry,
    ];
    match random.below(6) {
        0 | 1 => Box::new([0; 514]),
        2 => random.pick(&bad)(random),
        3 => Box::new(std::array::from_fn(|_| random.bits() as u32)),
        _ => schedules::any(random),
    }
}

/// Where a trace is cut: the lengths of its pieces.
pub fn pieces(random: &mut Random, length: usize) -> Vec<usize> {
    let most = match random.below(4) {
        0 => length,
        1 => random.pick(&[
            LONGEST_LINE - 1,
            LONGEST_LINE,
            LONGEST_LINE + 1,
            LONGEST_LINE + 2,
        ]),
        2 => length / 4,
        // Few bytes at a time, where that is not too many pieces.
        _ => (length / 24).max(3),
    };
    let mut sizes = Vec::new();
    let mut left = length;
    while left > 0 {
        // An empty piece is one too.
        let size = random.below(most.max(1) + 1).min(left);
        sizes.push(size);
        left -= size;
    }
    sizes
}

/// A room for what is printed: too small, just enough for a line, or more.
pub fn room(random: &mut Random) -> usize {
    match random.below(8) {
        0 => random.below(22),
        1 | 2 => 22,
        3 => 23,
        4 => random.from(22, 70) as usize,
        5 => random.from(22, 400) as usize,
        _ => 4_096,
    }
}

/// A room for what the end of a trace prints.
pub fn end_room(random: &mut Random) -> usize {
    random.pick(&[0, 1, 2, 3, 4, 4, 4, 5, 22])
}

#[cfg(test)]
mod tests {
    use super::*;
    use crate::pairs;

    #[test]
    fn extending_lists_extend_each_other() {
        let mut random = Random::new(6);
        for _ in 0..500 {
            let lists = extending(&mut random);
            for one in &lists {
                assert!(pairs::is_list(one));
                for other in &lists {
                    assert!(pairs::extends(one, other) || pairs::extends(other, one));
                }
            }
        }
    }

    #[test]
    fn pieces_are_the_whole() {
        let mut random = Random::new(7);
        for _ in 0..2_000 {
            let length = random.pick(&[0, 1, 30, 700, 20_000]);
            let pieces = pieces(&mut random, length);
            assert_eq!(pieces.iter().sum::<usize>(), length);
        }
    }

    #[test]
    fn none_of_the_lines_that_are_none_is_one() {
        let mut state = second::replay::State::default();
        for line in NO_LINES {
            let mut printed = Vec::new();
            state.line(line, &mut printed);
            assert_eq!(printed, b"!20\n", "{line:?}");
        }
    }
}
