//! Demand 3: an extension keeps every answer, and where neither list extends
//! the other some date has a DTAI under both, and the two differ.

use leap::ffi::Words;
use second::{well_formed, Raw};

use crate::call::{Call, Kind, Outcome, Program, Question};
use crate::days::{month_of, month_start, months_before, LAST_MONTH};
use crate::random::Random;
use crate::schedules::{
    self, expiry_in, latest_expiry, leaps_of, words_of, Leap, EXPIRY, MAX_GAP, MAX_LEAPS,
};

pub fn is_list(words: &Words) -> bool {
    well_formed(&Raw::from_words(words))
}

/// Whether the longer list extends the shorter, in the words of 01 and 10/14: its
/// leaps in months that start before the shorter one's expiry day are all the shorter
/// one's leaps, and its own expiry is no earlier.
pub fn extends(longer: &Words, shorter: &Words) -> bool {
    let known: Vec<Leap> = leaps_of(longer)
        .into_iter()
        .filter(|leap| month_start(leap.0) < shorter[EXPIRY])
        .collect();
    known == leaps_of(shorter) && longer[EXPIRY] >= shorter[EXPIRY]
}

/// The first month, of those that start before both expiries, at which the lists'
/// leaps differ.
pub fn parting(one: &Words, other: &Words) -> Option<u32> {
    let known = months_before(one[EXPIRY].min(other[EXPIRY]));
    let (one, other) = (leaps_of(one), leaps_of(other));
    let leap_at = |leaps: &[Leap], month| leaps.iter().find(|l| l.0 == month).copied();
    (0..known).find(|&m| leap_at(&one, m) != leap_at(&other, m))
}

/// Two lists and a question.
#[derive(Clone)]
pub struct Pair {
    pub longer: Box<Words>,
    pub shorter: Box<Words>,
    pub question: Question,
}

impl Pair {
    /// Two lists, and no question in particular.
    pub fn of(longer: &Words, shorter: &Words) -> Pair {
        Pair {
            longer: Box::new(*longer),
            shorter: Box::new(*shorter),
            question: Question {
                kind: Kind::Dtai,
                first: 0,
                second: 0,
            },
        }
    }

    /// Whether the longer list does extend the shorter, and does not keep what
    /// the program says under it.
    pub fn broken(&self, program: Program) -> bool {
        is_list(&self.longer) && is_list(&self.shorter) && extends(&self.longer, &self.shorter) && {
            let [longer, shorter] = self.calls().map(|call| program(&call));
            !kept(&shorter, &longer)
        }
    }

    /// The question under the longer list and under the shorter.
    pub fn calls(&self) -> [Call; 2] {
        [&self.longer, &self.shorter].map(|words| Call::Ask(words.clone(), self.question))
    }

    /// DTAI under both lists on the first day that they part.
    pub fn parting_calls(&self) -> Option<[Call; 2]> {
        let month = parting(&self.longer, &self.shorter)?;
        let question = Question {
            first: month_start(month).into(),
            ..Pair::of(&self.longer, &self.shorter).question
        };
        let pair = Pair {
            question,
            ..self.clone()
        };
        Some(pair.calls())
    }

    /// Whether neither list extends the other, and the program gives no two
    /// DTAI on the day that they part.
    pub fn not_parted(&self, program: Program) -> bool {
        let (one, other) = (&self.longer, &self.shorter);
        if !is_list(one) || !is_list(other) || extends(one, other) || extends(other, one) {
            return false;
        }
        self.parting_calls().is_none_or(|calls| {
            let [a, b] = calls.map(|call| program(&call));
            (a.number, b.number) != (0, 0) || a.values == b.values
        })
    }
}

/// Whether an outcome under a list may be followed by that one under a longer:
/// answers, 8 and 9 stay; 10 may stay or become an answer or 9.
fn kept(shorter: &Outcome, longer: &Outcome) -> bool {
    match shorter.number {
        0 | 8 | 9 => longer == shorter,
        10 => [0, 9, 10].contains(&longer.number),
        _ => false,
    }
}

/// A list and one that extends it.
pub fn extended(random: &mut Random) -> (Box<Words>, Box<Words>) {
    let shorter = schedules::any(random);
    let mut leaps = leaps_of(&shorter);
    let mut month = leaps.last().map_or(0, |leap| leap.0);
    let unknown = months_before(shorter[EXPIRY]);
    for _ in 0..random.pick(&[0, 1, 1, 2, 5, MAX_LEAPS - leaps.len()]) {
        let first = unknown.max(month + 1);
        let last = LAST_MONTH.min(month + MAX_GAP);
        if first >= last || leaps.len() == MAX_LEAPS {
            break;
        }
        // Often in the first month that the shorter one does not know.
        month = match random.below(3) {
            0 => first,
            1 => random.from(first, last - 1),
            _ => random.from(first, (last - 1).min(first + 20)),
        };
        leaps.push((month, random.from(0, 1)));
    }
    let soonest = shorter[EXPIRY].max(month_start(month) + 1);
    let longer = words_of(&leaps, expiry_from(random, soonest, month));
    (longer, shorter)
}

/// An expiry on this day, soon after it, or in any month from then on, if the last
/// leap's month allows it.
fn expiry_from(random: &mut Random, soonest: u32, last: u32) -> u32 {
    let latest = latest_expiry(last);
    match random.below(4) {
        0 => soonest,
        1 => random.from(soonest, latest.min(soonest + 40)),
        2 => soonest.max(expiry_in(random, last, month_of(soonest))),
        _ => {
            let month = random.from(month_of(soonest), month_of(latest));
            soonest.max(expiry_in(random, last, month))
        }
    }
}

/// A list and the same cut short.
pub fn cut_short(random: &mut Random) -> (Box<Words>, Box<Words>) {
    let longer = schedules::any(random);
    let mut leaps = leaps_of(&longer);
    let kept = random.below(leaps.len() + 1);
    // Of the leap that falls away nothing is known up to its month's first day.
    let latest = match leaps.get(kept) {
        None => longer[EXPIRY],
        Some(leap) => month_start(leap.0),
    };
    leaps.truncate(kept);
    let soonest = month_start(leaps.last().map_or(0, |leap| leap.0)) + 1;
    let expiry = match random.below(4) {
        0 | 1 => latest,
        2 => soonest,
        _ => random.from(soonest, latest),
    };
    (longer, words_of(&leaps, expiry))
}

/// Two lists that know different leaps: a sign turned, a leap dropped, moved or
/// put in in a month that both know.
pub fn contradicting(random: &mut Random) -> (Box<Words>, Box<Words>) {
    loop {
        let one = schedules::any(random);
        let mut leaps = leaps_of(&one);
        let mut expiry = one[EXPIRY];
        let at = random.below(leaps.len().max(1));
        let drawn = (random.from(1, months_before(expiry)), random.from(0, 1));
        match (random.below(4), leaps.get_mut(at)) {
            (0, Some(leap)) => leap.1 ^= 1,
            (1, Some(_)) => {
                leaps.remove(at);
            }
            (2, Some(leap)) => leap.0 = random.pick(&[leap.0 - 1, leap.0 + 1, drawn.0]),
            _ => leaps.push(drawn),
        }
        leaps.sort_unstable();
        if leaps.len() > MAX_LEAPS || leaps.iter().any(|leap| leap.0 >= LAST_MONTH) {
            continue;
        }
        let last_of = |leaps: &[Leap]| leaps.last().map_or(0, |leap| leap.0);
        match random.below(3) {
            0 => {
                leaps.truncate(at + 1);
                let last = last_of(&leaps);
                let month = LAST_MONTH.min(last + random.from(0, 12));
                expiry = expiry_in(random, last, month);
            }
            // The same month, or the last leap's.
            1 => {
                let last = last_of(&leaps);
                expiry = expiry_in(random, last, last.max(month_of(expiry)));
            }
            _ => {}
        }
        let other = words_of(&leaps, expiry);
        if is_list(&other) && !extends(&one, &other) && !extends(&other, &one) {
            return if random.one_in(2) {
                (one, other)
            } else {
                (other, one)
            };
        }
    }
}

#[cfg(test)]
mod tests {
    use super::*;

    #[test]
    fn pairs_are_what_they_are_called() {
        let mut random = Random::new(3);
        for _ in 0..2_000 {
            for make in [extended, cut_short] {
                let (longer, shorter) = make(&mut random);
                assert!(is_list(&longer) && is_list(&shorter));
                assert!(extends(&longer, &shorter));
                assert_eq!(parting(&longer, &shorter), None);
            }
            let (one, other) = contradicting(&mut random);
            assert!(is_list(&one) && is_list(&other));
            assert!(parting(&one, &other).is_some());
        }
    }
}
