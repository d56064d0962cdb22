//! What is compared: the sources of lists, schedules and traces, each with its
//! share of the calls.

use leap::ffi;

use crate::call::Format;
use crate::random::Random;
use crate::replays::Day;
use crate::{lists, malformed, pairs, schedules, texts, traces};

/// Lists, schedules or traces of one kind, and their share of the calls.
pub struct Source {
    pub name: &'static str,
    pub share: u64,
    pub make: Make,
}

pub type MakeWords = fn(&mut Random) -> Box<ffi::Words>;
pub type MakePair = fn(&mut Random) -> (Box<ffi::Words>, Box<ffi::Words>);

pub enum Make {
    List(Format, fn(&mut Random) -> Vec<u8>),
    /// Written, and asked all questions.
    Words(MakeWords),
    /// The first extends the second.
    Extension(MakePair),
    Contradiction(MakePair),
    /// Compared, and the longer handed back.
    Two(texts::Kind),
    /// Replayed, whole and in pieces, from words of any kind.
    Trace(Cuts, fn(&mut Random) -> Vec<u8>),
    /// A trace with the words that it starts from, replayed in the same way.
    From(Cuts, fn(&mut Random) -> Day),
}

/// The ways in which a trace is cut.
#[derive(Clone, Copy, PartialEq, Eq)]
pub enum Cuts {
    /// At random.
    Some,
    /// In two at every byte in turn, and at all bytes.
    All,
}

use Make::{Contradiction, Extension, From, List, Trace, Two, Words};

#[rustfmt::skip]
pub const SOURCES: [Source; 45] = [
    Source { name: "text, valid", share: 3, make: List(Format::Text, lists::text::valid) },
    Source { name: "text, damaged", share: 6, make: List(Format::Text, lists::text::broken) },
    Source { name: "text, near a limit", share: 3, make: List(Format::Text, lists::text::limit) },
    Source { name: "text, random bytes", share: 6, make: List(Format::Text, lists::text::random) },
    Source { name: "nybbles, valid", share: 3, make: List(Format::Nybbles, lists::nybbles::valid) },
    Source { name: "nybbles, preferred", share: 1, make: List(Format::Nybbles, lists::nybbles::preferred) },
    Source { name: "nybbles, damaged", share: 6, make: List(Format::Nybbles, lists::nybbles::broken) },
    Source { name: "nybbles, near a limit", share: 3, make: List(Format::Nybbles, lists::nybbles::limit) },
    Source { name: "nybbles, random bytes", share: 6, make: List(Format::Nybbles, lists::nybbles::random) },
    Source { name: "schedules, ordinary", share: 8, make: Words(schedules::ordinary) },
    Source { name: "schedules, dense", share: 8, make: Words(schedules::dense) },
    Source { name: "schedules, negative", share: 8, make: Words(schedules::negative) },
    Source { name: "schedules, sparse", share: 8, make: Words(schedules::sparse) },
    Source { name: "schedules, expiring at an edge", share: 12, make: Words(schedules::edged) },
    Source { name: "schedules, of 01 and 10/14", share: 6, make: Words(schedules::known) },
    Source { name: "malformed, count", share: 3, make: Words(malformed::bad_count) },
    Source { name: "malformed, sign", share: 3, make: Words(malformed::bad_sign) },
    Source { name: "malformed, month", share: 3, make: Words(malformed::bad_month) },
    Source { name: "malformed, unused place", share: 2, make: Words(malformed::bad_unused) },
    Source { name: "malformed, gap", share: 3, make: Words(malformed::bad_gap) },
    Source { name: "malformed, expiry", share: 5, make: Words(malformed::bad_expiry) },
    Source { name: "malformed, no expiry day", share: 3, make: Words(malformed::no_expiry) },
    Source { name: "pairs, extended", share: 8, make: Extension(pairs::extended) },
    Source { name: "pairs, cut short", share: 6, make: Extension(pairs::cut_short) },
    Source { name: "pairs, contradicting", share: 4, make: Contradiction(pairs::contradicting) },
    Source { name: "two lists, the same", share: 3, make: Two(texts::SAME) },
    Source { name: "two lists, one with a later expiry only", share: 5, make: Two(texts::LATER_EXPIRY) },
    Source { name: "two lists, one with a leap at the other's expiry", share: 5, make: Two(texts::LEAP_AT_EXPIRY) },
    Source { name: "two lists, one that extends the other", share: 5, make: Two(texts::EXTENDED) },
    Source { name: "two lists, contradicting in the first leap", share: 5, make: Two(texts::PARTED_AT_FIRST) },
    Source { name: "two lists, contradicting in the last leap", share: 5, make: Two(texts::PARTED_AT_LAST) },
    Source { name: "two lists, contradicting", share: 5, make: Two(texts::CONTRADICTING) },
    Source { name: "two lists, of 256 leaps, none shared", share: 2, make: Two(texts::NONE_SHARED) },
    Source { name: "two lists, unrelated", share: 5, make: Two(texts::UNRELATED) },
    Source { name: "two lists, the first refused", share: 4, make: Two(texts::FIRST_REFUSED) },
    Source { name: "two lists, the second refused", share: 4, make: Two(texts::SECOND_REFUSED) },
    Source { name: "two lists, both refused", share: 4, make: Two(texts::BOTH_REFUSED) },
    Source { name: "two lists, one a damaged copy", share: 7, make: Two(texts::DAMAGED) },
    Source { name: "traces, lists that extend each other", share: 48, make: Trace(Cuts::Some, traces::extended_day) },
    Source { name: "traces, lists that do not", share: 48, make: Trace(Cuts::Some, traces::contradicting_day) },
    Source { name: "traces, from a list that is held", share: 10, make: From(Cuts::Some, traces::held_day) },
    Source { name: "traces, damaged", share: 48, make: Trace(Cuts::Some, traces::damaged_day) },
    Source { name: "traces, long lines", share: 15, make: Trace(Cuts::Some, traces::long_lines) },
    Source { name: "traces, random bytes", share: 15, make: Trace(Cuts::Some, traces::random_bytes) },
    Source { name: "traces, cut at every byte", share: 26, make: Trace(Cuts::All, traces::short) },
];
