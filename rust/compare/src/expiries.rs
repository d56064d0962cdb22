//! The kinds of schedules by their expiry, and of questions at the end of what a
//! list knows, that a run must come across.

use leap::ffi::Words;

use crate::call::{Kind, Question};
use crate::days::{is_first, month_end, month_of, month_start, LAST_EXPIRY, LAST_MONTH};
use crate::pairs::{extends, is_list};
use crate::schedules::{last_leap, latest_expiry, EXPIRY, MAX_GAP};
use crate::times::{tai_at, DAY, SECOND};

/// Whether a list with this expiry, and this last leap's month (0 without one), is
/// of some kind.
type Is = fn(u32, u32) -> bool;

/// Whether the month 999 after this one, and the next, are before month 2400.
fn is_far(last: u32) -> bool {
    last + MAX_GAP < LAST_MONTH
}

/// The kinds of lists that must be met, each by its name.
#[rustfmt::skip]
const LISTS: [(&str, Is); 12] = [
    ("a list that expires on the first of a month", |expiry, _| is_first(expiry)),
    ("a list that expires on the second of a month", |expiry, _| is_first(expiry - 1)),
    ("a list that expires on the last day of a month", |expiry, _| is_first(expiry + 1)),
    ("a list that expires on another day of a month", |expiry, _| !(expiry - 1..=expiry + 1).any(is_first)),
    ("a list that expires in its last leap's month", |expiry, last| last > 0 && month_of(expiry) == last),
    ("a list without leaps that expires in month 0", |expiry, last| last == 0 && month_of(expiry) == 0),
    ("a list that expires on the day after its last leap's month starts", |expiry, last| expiry == month_start(last) + 1),
    ("a list that expires on the last day of its last leap's month", |expiry, last| expiry == month_end(last)),
    ("a list that expires on the first of the month 999 after its last leap", |expiry, last| is_far(last) && expiry == month_start(last + MAX_GAP)),
    ("a list that expires on the last day of the month 999 after its last leap", |expiry, last| is_far(last) && expiry == latest_expiry(last)),
    ("a list that expires on MJD 114365", |expiry, _| expiry == LAST_EXPIRY - 1),
    ("a list that expires on MJD 114366", |expiry, _| expiry == LAST_EXPIRY),
];

/// The kinds of words that are no list for their expiry alone.
#[rustfmt::skip]
const MALFORMED: [(&str, Is); 5] = [
    ("no list, for an expiry on the first day of its last leap's month", |expiry, last| expiry == month_start(last)),
    ("no list, for an expiry on the first of the month 1000 after its last leap", |expiry, last| is_far(last) && expiry == latest_expiry(last) + 1),
    ("no list, for an expiry on MJD 114367", |expiry, _| expiry == LAST_EXPIRY + 1),
    ("no list, for a month number where the expiry day stands", |expiry, _| (1..=LAST_MONTH).contains(&expiry)),
    ("no list, for an expiry of more than 17 bits", |expiry, _| expiry >> 17 != 0),
];

/// Whether these words are a list with another expiry.
fn is_list_but_for_expiry(words: &Words) -> bool {
    let mut other = *words;
    let last = last_leap(words);
    other[EXPIRY] = month_start(last) + 1;
    last < LAST_MONTH && is_list(&other)
}

/// The names of the kinds that these words are of.
pub fn kinds(words: &Words) -> impl Iterator<Item = &'static str> {
    let kinds: &[(&'static str, Is)] = match is_list(words) {
        true => &LISTS,
        false if is_list_but_for_expiry(words) => &MALFORMED,
        false => &[],
    };
    let (expiry, last) = (words[EXPIRY], last_leap(words));
    let met = kinds.iter().filter(move |kind| (kind.1)(expiry, last));
    met.map(|kind| kind.0)
}

/// Where a question stands beside the end of what a list knows.
#[derive(Clone, Copy, PartialEq, Eq)]
enum Place {
    /// On Z, before the first of a month: at the cut-off.
    CutOff,
    /// A microsecond, or a nanosecond of UTS, before it.
    BelowCutOff,
    /// On Z, before any other day: in the second that would be cut off, or at the time
    /// from which on it would be.
    Whole,
    /// In the second after that day's end.
    Beyond,
    /// On the expiry day, or at its start.
    Expired,
}

use Place::{BelowCutOff, Beyond, CutOff, Expired, Whole};

/// The questions that must be met, each by its name.
#[rustfmt::skip]
const QUESTIONS: [(&str, Kind, Place); 20] = [
    ("dtai on the expiry day", Kind::Dtai, Expired),
    ("utc_to_tai on the expiry day", Kind::UtcToTai, Expired),
    ("utc_to_tai at the cut-off", Kind::UtcToTai, CutOff),
    ("utc_to_tai just below the cut-off", Kind::UtcToTai, BelowCutOff),
    ("utc_to_tai where a last day known whole has no cut-off", Kind::UtcToTai, Whole),
    ("utc_to_tai in the second after a last day known whole", Kind::UtcToTai, Beyond),
    ("tai_to_utc at the start of the expiry day", Kind::TaiToUtc, Expired),
    ("tai_to_utc at the cut-off", Kind::TaiToUtc, CutOff),
    ("tai_to_utc just below the cut-off", Kind::TaiToUtc, BelowCutOff),
    ("tai_to_utc where a last day known whole has no cut-off", Kind::TaiToUtc, Whole),
    ("tai_to_utc in the second after a last day known whole", Kind::TaiToUtc, Beyond),
    ("utc_to_uts on the expiry day", Kind::UtcToUts, Expired),
    ("utc_to_uts at the cut-off", Kind::UtcToUts, CutOff),
    ("utc_to_uts just below the cut-off", Kind::UtcToUts, BelowCutOff),
    ("utc_to_uts where a last day known whole has no cut-off", Kind::UtcToUts, Whole),
    ("utc_to_uts in the second after a last day known whole", Kind::UtcToUts, Beyond),
    ("uts_to_utc on the expiry day", Kind::UtsToUtc, Expired),
    ("uts_to_utc at the cut-off", Kind::UtsToUtc, CutOff),
    ("uts_to_utc just below the cut-off", Kind::UtsToUtc, BelowCutOff),
    ("uts_to_utc where a last day known whole has no cut-off", Kind::UtsToUtc, Whole),
];

/// The place of a time on Z, in that many parts of a microsecond. The cut-off is that
/// of TAI or of UTS.
fn on_last_day(time: u64, cut_off: u64, parts: u64, is_cut_off: bool) -> Option<Place> {
    match is_cut_off {
        true if time == cut_off * parts => Some(CutOff),
        true if time == cut_off * parts - 1 => Some(BelowCutOff),
        true => None,
        false if (cut_off * parts..DAY * parts).contains(&time) => Some(Whole),
        false if (DAY * parts..(DAY + SECOND) * parts).contains(&time) => Some(Beyond),
        false => None,
    }
}

fn place(words: &Words, question: &Question) -> Option<Place> {
    const TAI_CUT_OFF: u64 = 86_399 * SECOND;
    const UTS_CUT_OFF: u64 = 85_399 * SECOND;
    let expiry = words[EXPIRY];
    let (first, second) = (question.first, question.second);
    let (cut_off, parts) = match question.kind {
        Kind::Dtai => return (first == expiry.into()).then_some(Expired),
        Kind::TaiToUtc => {
            let end = tai_at(words, expiry.into());
            if first == end {
                return Some(Expired);
            }
            // The time on Z.
            let time = first.checked_add(DAY)?.checked_sub(end)?;
            return on_last_day(time, TAI_CUT_OFF, 1, is_first(expiry));
        }
        Kind::UtcToTai => (TAI_CUT_OFF, 1),
        Kind::UtcToUts => (UTS_CUT_OFF, 1),
        Kind::UtsToUtc => (UTS_CUT_OFF, 1_000),
    };
    match u64::from(expiry).checked_sub(first)? {
        0 => Some(Expired),
        1 => on_last_day(second, cut_off, parts, is_first(expiry)),
        _ => None,
    }
}

/// The name of a question's place under a list, if it must be met.
pub fn asked(words: &Words, question: &Question) -> Option<&'static str> {
    let place = place(words, question)?;
    let found = QUESTIONS
        .iter()
        .find(|q| (q.1, q.2) == (question.kind, place));
    found.map(|q| q.0)
}

const ONE_MONTH_EXTENDED: &str = "two expiries in one month, and one list extends the other";
const ONE_MONTH_PARTED: &str = "two expiries in one month, and the lists contradict";

/// What two lists are that expire on different days of one month.
pub fn in_one_month(one: &Words, other: &Words) -> Option<&'static str> {
    let (first, second) = (one[EXPIRY], other[EXPIRY]);
    if first == second || month_of(first) != month_of(second) || !is_list(one) || !is_list(other) {
        return None;
    }
    match extends(one, other) || extends(other, one) {
        true => Some(ONE_MONTH_EXTENDED),
        false => Some(ONE_MONTH_PARTED),
    }
}

/// All names.
pub fn names() -> impl Iterator<Item = &'static str> {
    let words = LISTS.iter().chain(&MALFORMED).map(|kind| kind.0);
    let asked = QUESTIONS.iter().map(|question| question.0);
    words
        .chain(asked)
        .chain([ONE_MONTH_EXTENDED, ONE_MONTH_PARTED])
}
