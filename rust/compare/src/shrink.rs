//! The smallest case: a case is made smaller as long as it still fails.

use leap::ffi::Words;

use crate::call::{second, Call, Question};
use crate::edits::{edited, edits, lower, moved, WAYS};
use crate::many::Many;
use crate::pairs::Pair;
use crate::smaller;
use crate::texts::compared_length;

pub trait Shrink: Clone {
    /// Smaller cases of the same kind, the boldest first. Each has fewer bytes
    /// or simpler ones, or a smaller sum of its schedules' words, or the same and a
    /// smaller sum of its other numbers, so this has an end.
    fn smaller(&self) -> Box<dyn Iterator<Item = Self> + '_>;
}

/// A case that fails, and of which no smaller one that `smaller` knows does.
pub fn shrink<T: Shrink>(mut case: T, fails: impl Fn(&T) -> bool) -> T {
    loop {
        let Some(smaller) = case.smaller().find(&fails) else {
            return case;
        };
        case = smaller;
    }
}

/// Lower times of day: whole seconds, milliseconds and microseconds first, then
/// any.
fn lower_times(time: u64) -> impl Iterator<Item = u64> {
    let units = [1_000_000_000, 1_000_000, 1_000].into_iter();
    units
        .flat_map(move |unit| {
            let below = lower(time / unit).into_iter();
            below.chain([time / unit]).map(move |count| count * unit)
        })
        .filter(move |&lower| lower < time)
        .chain(lower(time))
}

fn smaller_questions(question: Question) -> impl Iterator<Item = Question> {
    let days = [41_317].into_iter().filter(move |&d| d < question.first);
    let times = lower_times(question.second).map(move |second| Question { second, ..question });
    times.chain(
        days.chain(lower(question.first))
            .map(move |first| Question { first, ..question }),
    )
}

/// The rooms to try for an output that is now shorter: one as much smaller, and
/// the same.
fn rooms(room: usize, before: usize, after: usize) -> [usize; 2] {
    let saved = before.saturating_sub(after);
    [room.saturating_sub(saved), room]
}

impl Shrink for Call {
    fn smaller(&self) -> Box<dyn Iterator<Item = Call> + '_> {
        match self {
            Call::Read(format, list) => {
                let lists = smaller::lists(*format, list).into_iter();
                Box::new(lists.map(|list| Call::Read(*format, list)))
            }
            Call::Write(format, words, room) => {
                let length = |words: &Words| {
                    let list = second(&Call::Write(*format, Box::new(*words), 1_028));
                    list.values[0] as usize
                };
                let before = length(words);
                let fewer = edits(words).into_iter().flat_map(move |edit| {
                    let words = edited(words, edit);
                    let rooms = rooms(*room, before, length(&words));
                    rooms.map(|room| Call::Write(*format, words.clone(), room))
                });
                let rooms = lower(*room as u64).into_iter();
                let tighter = rooms.map(|r| Call::Write(*format, words.clone(), r as usize));
                Box::new(fewer.chain(tighter))
            }
            Call::Ask(words, question) => {
                let fewer = edits(words).into_iter().flat_map(|edit| {
                    let questions = moved(*question, words, edit).into_iter();
                    let words = edited(words, edit);
                    questions.map(move |question| Call::Ask(words.clone(), question))
                });
                let numbers = smaller_questions(*question);
                Box::new(fewer.chain(numbers.map(|q| Call::Ask(words.clone(), q))))
            }
            Call::Compare(one, other, room) => {
                let before = compared_length(one, other);
                let lists = smaller::two_lists(one, other).into_iter();
                let fewer = lists.flat_map(move |(one, other)| {
                    let rooms = rooms(*room, before, compared_length(&one, &other));
                    rooms.map(|room| Call::Compare(one.clone(), other.clone(), room))
                });
                let tighter = lower(*room as u64).into_iter();
                let tighter =
                    tighter.map(|r| Call::Compare(one.clone(), other.clone(), r as usize));
                Box::new(fewer.chain(tighter))
            }
            Call::Longer(one, other) => {
                let lists = smaller::two_lists(one, other).into_iter();
                Box::new(lists.map(|(one, other)| Call::Longer(one, other)))
            }
            Call::Extends(longer, shorter) => {
                let both = edits(longer).into_iter();
                let both =
                    both.map(|edit| Call::Extends(edited(longer, edit), edited(shorter, edit)));
                let longers = edits(longer).into_iter();
                let longers =
                    longers.map(|edit| Call::Extends(edited(longer, edit), shorter.clone()));
                let shorters = edits(shorter).into_iter();
                let shorters =
                    shorters.map(|edit| Call::Extends(longer.clone(), edited(shorter, edit)));
                Box::new(both.chain(longers).chain(shorters))
            }
            Call::Replay(current, stored, trace, room) => {
                let call = |current: &Words, stored: &Words, trace: Vec<u8>, room| {
                    Call::Replay(Box::new(*current), Box::new(*stored), trace, room)
                };
                let shorter = smaller::traces(trace);
                let shorter = shorter.map(move |trace| call(current, stored, trace, *room));
                let currents = edits(current)
                    .into_iter()
                    .map(move |edit| call(&edited(current, edit), stored, trace.clone(), *room));
                let storeds = edits(stored)
                    .into_iter()
                    .map(move |edit| call(current, &edited(stored, edit), trace.clone(), *room));
                let rooms = lower(*room as u64).into_iter();
                let tighter =
                    rooms.map(move |room| call(current, stored, trace.clone(), room as usize));
                Box::new(shorter.chain(currents).chain(storeds).chain(tighter))
            }
            Call::ReplayEnd(left, room) => {
                let shorter = smaller::traces(left);
                let shorter = shorter.map(move |left| Call::ReplayEnd(left, *room));
                let rooms = lower(*room as u64).into_iter();
                let tighter = rooms.map(|room| Call::ReplayEnd(left.clone(), room as usize));
                Box::new(shorter.chain(tighter))
            }
        }
    }
}

impl Shrink for Pair {
    fn smaller(&self) -> Box<dyn Iterator<Item = Pair> + '_> {
        let both = edits(&self.longer).into_iter().flat_map(|edit| {
            let (longer, shorter) = (edited(&self.longer, edit), edited(&self.shorter, edit));
            let pair = move |question| Pair {
                longer: longer.clone(),
                shorter: shorter.clone(),
                question,
            };
            let questions = moved(self.question, &self.shorter, edit);
            questions.into_iter().map(pair)
        });
        let longer = edits(&self.longer).into_iter().map(|edit| Pair {
            longer: edited(&self.longer, edit),
            ..self.clone()
        });
        let shorter = edits(&self.shorter).into_iter().map(|edit| Pair {
            shorter: edited(&self.shorter, edit),
            ..self.clone()
        });
        let numbers = smaller_questions(self.question);
        let asked = numbers.map(|question| Pair {
            question,
            ..self.clone()
        });
        Box::new(both.chain(longer).chain(shorter).chain(asked))
    }
}

/// A call with many questions, each of them changed.
fn each(many: &Many, change: impl Fn(Question) -> Question) -> Many {
    let mut changed = many.clone();
    for at in 0..many.firsts.len() {
        put(&mut changed, at, change(many.question(at)));
    }
    changed
}

fn put(many: &mut Many, at: usize, question: Question) {
    many.firsts[at] = question.first;
    if let Some(second) = many.seconds.get_mut(at) {
        *second = question.second;
    }
}

/// Without the questions `from..to`, and without their places.
fn without(many: &Many, from: usize, to: usize) -> Many {
    let mut fewer = many.clone();
    let cut = |length: usize| length - (to.min(length) - from.min(length));
    fewer.firsts.drain(from..to);
    let seconds = from.min(many.seconds.len())..to.min(many.seconds.len());
    fewer.seconds.drain(seconds);
    fewer.numbers = cut(many.numbers);
    fewer.ones = cut(many.ones);
    fewer.twos = cut(many.twos);
    fewer
}

/// With one of the arrays an element shorter.
fn tighter(many: &Many) -> Vec<Many> {
    let mut all = vec![many.clone(); 5];
    all[0].firsts.pop();
    all[1].seconds.pop();
    all[2].numbers = many.numbers.saturating_sub(1);
    all[3].ones = many.ones.saturating_sub(1);
    all[4].twos = many.twos.saturating_sub(1);
    all.retain(|shorter| shorter != many);
    all
}

impl Shrink for Many {
    fn smaller(&self) -> Box<dyn Iterator<Item = Many> + '_> {
        let length = self.firsts.len();
        let halves = [(0, length / 2), (length / 2, length)];
        let cuts = halves.into_iter().filter(|(from, to)| from < to);
        let fewer = cuts
            .chain((0..length).map(|at| (at, at + 1)))
            .map(|(from, to)| without(self, from, to));
        let lists = edits(&self.words).into_iter().flat_map(move |edit| {
            let words = edited(&self.words, edit);
            (0..WAYS).map(move |way| Many {
                words: words.clone(),
                ..each(self, |question| {
                    let ways = moved(question, &self.words, edit);
                    ways[way.min(ways.len() - 1)]
                })
            })
        });
        let simpler = (0..length).flat_map(move |at| {
            smaller_questions(self.question(at)).map(move |question| {
                let mut many = self.clone();
                put(&mut many, at, question);
                many
            })
        });
        Box::new(fewer.chain(tighter(self)).chain(lists).chain(simpler))
    }
}
