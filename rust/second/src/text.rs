//! The compact text list: a table of grammar states against byte classes.

use crate::calendar::LAST_MONTH;
use crate::refusal::*;
use crate::schedule::{Laying, Mark, Raw, Reading, Schedule, MAX_LEAPS};

#[derive(Clone, Copy)]
enum Class {
    Zero,
    OneToNine,
    Plus,
    Minus,
    Query,
    Other,
    EndOfInput,
}

fn classify(byte: Option<&u8>) -> Class {
    match byte {
        None => Class::EndOfInput,
        Some(b'0') => Class::Zero,
        Some(b'1'..=b'9') => Class::OneToNine,
        Some(b'+') => Class::Plus,
        Some(b'-') => Class::Minus,
        Some(b'?') => Class::Query,
        Some(_) => Class::Other,
    }
}

#[derive(Clone, Copy)]
enum State {
    GapDue,
    OneDigit,
    TwoDigits,
    ThreeDigits,
    Ended,
}

#[derive(Clone, Copy)]
enum Step {
    Digit(State),
    Marked(Mark),
    Finish,
    Refuse(u8),
}

use Mark::{Expiry, Negative, Positive};
use State::{OneDigit, ThreeDigits, TwoDigits};
use Step::{Digit, Finish, Marked, Refuse};

/// Rows are states, columns classes, both in the order of their declarations.
#[rustfmt::skip]
const GRAMMAR: [[Step; 7]; 5] = [
    // "0"               "1".."9"            "+"               "-"               "?"             other      end of input
    [Refuse(3),          Digit(OneDigit),    Refuse(2),        Refuse(2),        Refuse(2),      Refuse(2), Refuse(1)],
    [Digit(TwoDigits),   Digit(TwoDigits),   Marked(Positive), Marked(Negative), Marked(Expiry), Refuse(2), Refuse(1)],
    [Digit(ThreeDigits), Digit(ThreeDigits), Marked(Positive), Marked(Negative), Marked(Expiry), Refuse(2), Refuse(1)],
    [Refuse(3),          Refuse(3),          Marked(Positive), Marked(Negative), Marked(Expiry), Refuse(2), Refuse(1)],
    [Refuse(6),          Refuse(6),          Refuse(6),        Refuse(6),        Refuse(6),      Refuse(6), Finish],
];

/// The schedule of a text list, or the refusal's number and place.
pub fn parse(list: &[u8]) -> Result<Schedule, (u8, u64)> {
    let mut state = State::GapDue;
    let mut laying = Laying::default();
    let mut gap = 0;
    let mut last_gap = None;
    let mut place = 0;
    loop {
        let byte = list.get(place);
        match GRAMMAR[state as usize][classify(byte) as usize] {
            Refuse(number) => return Err((number, place as u64)),
            Finish => break,
            Digit(next) => {
                gap = 10 * gap + u32::from(byte.map_or(0, |b| b - b'0'));
                state = next;
            }
            Marked(mark) => {
                if laying.months() + gap > LAST_MONTH {
                    return Err((PAST_LAST_MONTH, place as u64));
                }
                if mark == Expiry {
                    last_gap = Some(gap);
                    state = State::Ended;
                } else {
                    if laying.leaps() == MAX_LEAPS {
                        return Err((TOO_MANY_LEAPS, place as u64));
                    }
                    laying.leap(gap, if mark == Positive { 1 } else { -1 });
                    state = State::GapDue;
                }
                gap = 0;
            }
        }
        place += 1;
    }
    // The grammar finishes only after a "?".
    match last_gap {
        Some(gap) => Ok(laying.expire(gap)),
        None => Err((ENDS_EARLY, place as u64)),
    }
}

pub fn read_text(list: &[u8]) -> Reading {
    match parse(list) {
        Ok(schedule) => Reading::accepted(&schedule),
        Err((number, place)) => Reading::refused(number, place),
    }
}

/// A schedule's text list, or 17.
pub fn spell(schedule: &Schedule) -> Result<Vec<u8>, u8> {
    let mut list = Vec::new();
    for (gap, mark) in schedule.gaps()? {
        list.extend_from_slice(gap.to_string().as_bytes());
        list.push(match mark {
            Positive => b'+',
            Negative => b'-',
            Expiry => b'?',
        });
    }
    Ok(list)
}

pub fn write_text(raw: &Raw, out: &mut [u8]) -> (u8, u64) {
    write_by(spell, raw, out)
}

/// Writes a list in a format: refusal 11, then 17, then 7, else the bytes.
pub(crate) fn write_by(
    spell: fn(&Schedule) -> Result<Vec<u8>, u8>,
    raw: &Raw,
    out: &mut [u8],
) -> (u8, u64) {
    let schedule = Schedule::from_raw(raw).ok_or(NOT_WELL_FORMED);
    deliver(schedule.and_then(|s| spell(&s)), out)
}

/// The writers' common end: the refusal so far, then 7, else the bytes.
pub(crate) fn deliver(list: Result<Vec<u8>, u8>, out: &mut [u8]) -> (u8, u64) {
    let list = match list {
        Ok(list) => list,
        Err(number) => return (number, 0),
    };
    match out.get_mut(..list.len()) {
        None => (OUTPUT_TOO_SHORT, 0),
        Some(start) => {
            start.copy_from_slice(&list);
            (ACCEPTED, list.len() as u64)
        }
    }
}
