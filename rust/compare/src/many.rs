//! Many questions in one call, and what each of the two programs makes of them.

use leap::ffi::{self, Words};

use crate::call::{second, Call, Kind, Question, FILL, FILL_DTAI};
use crate::random::Random;

/// Elements before and after each output, which a call must not touch.
pub const EDGE: usize = 2;

/// What the numbers hold before a call.
pub const FILL_NUMBER: u8 = 0xa5;

/// A call: its schedule, its arrays of questions, and the lengths of its arrays
/// of answers. Only some kinds have `seconds`, and only TAI to UTC has `twos`:
/// an array that is not the kind's is not looked at.
#[derive(Clone, Debug, PartialEq, Eq)]
pub struct Many {
    pub words: Box<Words>,
    pub kind: Kind,
    pub firsts: Vec<u64>,
    pub seconds: Vec<u64>,
    pub numbers: usize,
    pub ones: usize,
    pub twos: usize,
}

/// The count that a call returns, and all elements of its arrays of answers,
/// `EDGE` more on either side of each.
#[derive(Clone, Debug, PartialEq, Eq)]
pub struct Outcome {
    pub count: u64,
    pub numbers: Vec<u8>,
    pub ones: Vec<i128>,
    pub twos: Vec<i128>,
}

/// A length for an array of that many: often just right, or a little more where
/// there may be more, and sometimes less.
fn length(random: &mut Random, count: usize, more: usize) -> usize {
    match random.below(10) {
        0 => random.below(count + 1),
        1 | 2 => count + random.below(more + 1),
        _ => count,
    }
}

impl Many {
    /// The questions of that kind under a schedule, in arrays whose lengths
    /// often differ.
    pub fn of(words: &Words, kind: Kind, questions: &[Question], random: &mut Random) -> Many {
        let asked: Vec<&Question> = questions.iter().filter(|q| q.kind == kind).collect();
        let count = asked.len();
        let firsts = length(random, count, 0);
        let seconds = length(random, count, 0);
        Many {
            words: Box::new(*words),
            kind,
            firsts: asked[..firsts].iter().map(|q| q.first).collect(),
            seconds: asked[..seconds].iter().map(|q| q.second).collect(),
            numbers: length(random, count, 3),
            ones: length(random, count, 3),
            twos: length(random, count, 3),
        }
    }

    /// The function's name, without `leap_`.
    pub fn name(&self) -> &'static str {
        match self.kind {
            Kind::Dtai => "dtai_many",
            Kind::UtcToTai => "utc_to_tai_many",
            Kind::TaiToUtc => "tai_to_utc_many",
            Kind::UtcToUts => "utc_to_uts_many",
            Kind::UtsToUtc => "uts_to_utc_many",
        }
    }

    /// The lengths of its arrays, in the header's order.
    fn lengths(&self) -> Vec<usize> {
        let (firsts, seconds) = (self.firsts.len(), self.seconds.len());
        match self.kind {
            Kind::Dtai => vec![firsts, self.numbers, self.ones],
            Kind::TaiToUtc => vec![firsts, self.numbers, self.ones, self.twos],
            _ => vec![firsts, seconds, self.numbers, self.ones],
        }
    }

    /// The shortest of the lengths.
    pub fn count(&self) -> usize {
        self.lengths().into_iter().min().unwrap_or(0)
    }

    pub fn question(&self, at: usize) -> Question {
        Question {
            kind: self.kind,
            first: self.firsts[at],
            second: self.seconds.get(at).copied().unwrap_or(0),
        }
    }

    /// The numbers of the questions asked, in an outcome.
    pub fn answered<'a>(&self, outcome: &'a Outcome) -> &'a [u8] {
        &outcome.numbers[EDGE..EDGE + self.count()]
    }

    pub fn differs(&self) -> bool {
        self.archive() != self.second()
    }

    /// The proved archive's outcome.
    pub fn archive(&self) -> Outcome {
        let (words, firsts, seconds) = (&self.words, &self.firsts, &self.seconds);
        let mut all_numbers = vec![FILL_NUMBER; self.numbers + 2 * EDGE];
        let mut all_dtai = vec![FILL_DTAI; self.ones + 2 * EDGE];
        let mut all_ones = vec![FILL; self.ones + 2 * EDGE];
        let mut all_twos = vec![FILL; self.twos + 2 * EDGE];
        let numbers = &mut all_numbers[EDGE..EDGE + self.numbers];
        let dtai = &mut all_dtai[EDGE..EDGE + self.ones];
        let ones = &mut all_ones[EDGE..EDGE + self.ones];
        let twos = &mut all_twos[EDGE..EDGE + self.twos];
        let count = match self.kind {
            Kind::Dtai => ffi::dtai_many(words, firsts, numbers, dtai),
            Kind::UtcToTai => ffi::utc_to_tai_many(words, firsts, seconds, numbers, ones),
            Kind::TaiToUtc => ffi::tai_to_utc_many(words, firsts, numbers, ones, twos),
            Kind::UtcToUts => ffi::utc_to_uts_many(words, firsts, seconds, numbers, ones),
            Kind::UtsToUtc => ffi::uts_to_utc_many(words, firsts, seconds, numbers, ones),
        };
        Outcome {
            count,
            numbers: all_numbers,
            ones: match self.kind {
                Kind::Dtai => all_dtai.into_iter().map(i128::from).collect(),
                _ => all_ones.into_iter().map(i128::from).collect(),
            },
            twos: all_twos.into_iter().map(i128::from).collect(),
        }
    }

    /// What the second program says, asked one by one.
    pub fn second(&self) -> Outcome {
        let fill = match self.kind {
            Kind::Dtai => i128::from(FILL_DTAI),
            _ => i128::from(FILL),
        };
        let mut outcome = Outcome {
            count: self.count() as u64,
            numbers: vec![FILL_NUMBER; self.numbers + 2 * EDGE],
            ones: vec![fill; self.ones + 2 * EDGE],
            twos: vec![i128::from(FILL); self.twos + 2 * EDGE],
        };
        for at in 0..self.count() {
            let said = second(&Call::Ask(self.words.clone(), self.question(at)));
            outcome.numbers[EDGE + at] = said.number;
            outcome.ones[EDGE + at] = said.values[0];
            if self.kind == Kind::TaiToUtc {
                outcome.twos[EDGE + at] = said.values[1];
            }
        }
        outcome
    }
}

#[cfg(test)]
mod tests {
    use super::*;
    use crate::{schedules, times};

    #[test]
    fn each_array_is_at_times_the_shortest() {
        let mut random = Random::new(4);
        for kind in Kind::ALL {
            let mut shortest = [0; 4];
            for _ in 0..2_000 {
                let words = schedules::ordinary(&mut random);
                let questions = [kind; 10].map(|kind| times::question(&mut random, &words, kind));
                let many = Many::of(&words, kind, &questions, &mut random);
                let lengths = many.lengths();
                let least = |l: &usize| *l == many.count();
                if lengths.iter().copied().filter(|l| least(l)).count() == 1 {
                    shortest[lengths.iter().position(least).unwrap_or(0)] += 1;
                }
            }
            let arrays = if kind == Kind::Dtai { 3 } else { 4 };
            assert!(shortest[..arrays].iter().all(|&n| n > 40), "{shortest:?}");
        }
    }
}
