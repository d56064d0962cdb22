//! Ways to make a schedule smaller, and to move a question along with it.

use leap::ffi::Words;

use crate::call::{Kind, Question};
use crate::days::{days_back, FIRST_DAY};
use crate::schedules::{expiry_month, leaps_of, COUNT, EXPIRY, MAX_LEAPS};
use crate::times::{DAY, SECOND};

/// Lower numbers: 0, the half, .., one less; and those with a bit cleared.
pub fn lower(value: u64) -> Vec<u64> {
    let steps = (0..64).map(|k| value >> k).take_while(|&step| step > 0);
    let bits = (0..64).map(|k| 1 << k).filter(|&bit| value & bit != 0);
    steps.chain(bits).map(|step| value - step).collect()
}

fn lower_word(value: u32) -> Vec<u32> {
    lower(value.into()).into_iter().map(|v| v as u32).collect()
}

/// A way to make a schedule smaller.
#[derive(Clone, Copy)]
pub enum Edit {
    /// Take out a used place, and move those after it, and the expiry, so many
    /// months back. Unused places move up too, or stay.
    Drop(usize, u32, Unused),
    /// Move the months from a used place on, and the expiry, so many back.
    Close(usize, u32),
    Set(usize, u32),
}

#[derive(Clone, Copy)]
pub enum Unused {
    Move,
    Stay,
}

fn used(words: &Words) -> usize {
    MAX_LEAPS.min(words[COUNT] as usize)
}

pub fn edits(words: &Words) -> Vec<Edit> {
    let set = |at: usize| {
        let values = lower_word(words[at]).into_iter();
        values.map(move |value| Edit::Set(at, value))
    };
    let mut edits: Vec<Edit> = set(COUNT).collect();
    let mut before = 0;
    let months = leaps_of(words).into_iter().map(|leap| leap.0);
    for (place, month) in months.chain([expiry_month(words)]).enumerate() {
        let gap = month.saturating_sub(before);
        if place < used(words) {
            edits.push(Edit::Drop(place, gap, Unused::Move));
            edits.push(Edit::Drop(place, gap, Unused::Stay));
            edits.push(Edit::Drop(place, 0, Unused::Move));
            edits.push(Edit::Drop(place, 0, Unused::Stay));
        }
        let gaps = lower_word(gap).into_iter();
        edits.extend(gaps.map(|g| Edit::Close(place, gap - g)));
        before = month;
    }
    edits.extend(set(EXPIRY).chain((0..COUNT).flat_map(set)));
    edits
}

pub fn edited(words: &Words, edit: Edit) -> Box<Words> {
    let mut words = Box::new(*words);
    let used = used(&words);
    let (from, by) = match edit {
        Edit::Set(at, value) => {
            words[at] = value;
            return words;
        }
        Edit::Close(place, by) => (place, by),
        Edit::Drop(place, by, unused) => {
            let end = match unused {
                Unused::Move => COUNT,
                Unused::Stay => 2 * used,
            };
            if place < used {
                words.copy_within(2 * place + 2..end, 2 * place);
                words[end - 2..end].fill(0);
                words[COUNT] -= 1;
            }
            (place, by)
        }
    };
    for place in from..used {
        words[2 * place] = words[2 * place].saturating_sub(by);
    }
    words[EXPIRY] -= days_back(words[EXPIRY].into(), by).min(words[EXPIRY]);
    words
}

/// The most ways in which a question is moved.
pub const WAYS: usize = 7;

/// The question under these words, moved with what an edit moves: by as many months
/// as that is at its own day, or by as many days as the expiry, or not at all. A TAI
/// is also moved by the second of a leap.
pub fn moved(question: Question, words: &Words, edit: Edit) -> Vec<Question> {
    let by = match edit {
        Edit::Drop(_, by, _) | Edit::Close(_, by) => by,
        Edit::Set(..) => 0,
    };
    let own = match question.kind {
        Kind::TaiToUtc => u64::from(FIRST_DAY) + question.first / DAY,
        _ => question.first,
    };
    let expiry = words[EXPIRY] - edited(words, edit)[EXPIRY];
    let with = |first| Question { first, ..question };
    let mut ways = Vec::with_capacity(WAYS);
    for days in [days_back(own, by), expiry].map(u64::from) {
        if question.kind != Kind::TaiToUtc {
            ways.push(with(question.first.saturating_sub(days)));
            continue;
        }
        let tai = question.first.saturating_sub(DAY.saturating_mul(days));
        let around = [tai, tai.saturating_sub(SECOND), tai.saturating_add(SECOND)];
        ways.extend(around.map(with));
    }
    ways.push(question);
    ways
}
