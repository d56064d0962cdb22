//! How many calls were compared, by source and by result.

use std::collections::BTreeMap;
use std::fmt;

use crate::call::{Call, Outcome};
use crate::call::{EXTENDS, EXTENDS_NOT, FIRST_IS_LONGER, SECOND_IS_LONGER, VERDICTS};
use crate::{expiries, replays};

const NOT_WELL_FORMED: u8 = 11;
const NO_GAP: u8 = 17;

/// Room for any list, and more.
pub const ANY_LIST: usize = 1_028;

/// The numbers that 01, 7/14, 10/14 and 12/14 let each function return, or put into
/// an array.
const RESULTS: [(&str, &[u8]); 19] = [
    ("read_text", &[0, 1, 2, 3, 4, 5, 6]),
    ("read_nybbles", &[0, 1, 3, 4, 5, 6]),
    ("write_text", &[0, 7, 11, 17]),
    ("write_nybbles", &[0, 7, 11, 17]),
    ("dtai", &[0, 8, 10, 11]),
    ("utc_to_tai", &[0, 8, 9, 10, 11]),
    ("tai_to_utc", &[0, 8, 10, 11]),
    ("utc_to_uts", &[0, 8, 9, 10, 11]),
    ("uts_to_utc", &[0, 8, 9, 10, 11]),
    ("dtai_many", &[0, 8, 10, 11]),
    ("utc_to_tai_many", &[0, 8, 9, 10, 11]),
    ("tai_to_utc_many", &[0, 8, 10, 11]),
    ("utc_to_uts_many", &[0, 8, 9, 10, 11]),
    ("uts_to_utc_many", &[0, 8, 9, 10, 11]),
    ("compare_text", &[0, 1, 2, 3, 4, 5, 6, 7]),
    ("longer_text", &[0, 1, 2, 3, 4, 5, 6, 16]),
    ("extends", &[0, 11]),
    ("replay", &[0, 7]),
    ("replay_end", &[0, 7]),
];

/// Two text lists were compared.
pub const TWO_LISTS: &str = "two text lists";
/// They were compared with every room from 0 to what they need.
pub const EVERY_ROOM: &str = "two text lists with every room up to what they need";
/// Their comparison was as long as any can be.
pub const LONGEST: &str = "a comparison of 4633 bytes";

/// A writer refused with 17 where there was no room, and where there was.
const NO_GAP_NO_ROOM: &str = "a list that is refused with 17 in no room";
const NO_GAP_IN_ROOM: &str = "a list that is refused with 17 in room for any";

/// A trace was replayed.
pub const TRACES: &str = "traces";
/// A trace of no bytes was.
pub const EMPTY_TRACES: &str = "a trace of no bytes";
/// A trace's last line lacked its LF.
pub const WITHOUT_LF: &str = "a trace whose last line lacks its LF";
/// A trace was cut in two at every byte in turn.
pub const CUT_EVERYWHERE: &str = "a trace cut in two at every byte";
/// A trace came byte by byte.
pub const BYTE_BY_BYTE: &str = "a trace byte by byte";
/// A line that is not complete was over 4,097 bytes long.
pub const CUT_SHORT: &str = "a line of which the start was kept";

/// What else must be met.
fn to_meet() -> impl Iterator<Item = &'static str> {
    let verdicts = VERDICTS.iter().map(|verdict| verdict.1);
    let others = [FIRST_IS_LONGER, SECOND_IS_LONGER, EXTENDS, EXTENDS_NOT];
    let lists = [
        TWO_LISTS,
        EVERY_ROOM,
        LONGEST,
        NO_GAP_NO_ROOM,
        NO_GAP_IN_ROOM,
    ];
    let lines = replays::KINDS.iter().map(|kind| kind.0);
    let traces = [
        EMPTY_TRACES,
        WITHOUT_LF,
        CUT_EVERYWHERE,
        BYTE_BY_BYTE,
        CUT_SHORT,
        TRACES,
    ];
    verdicts
        .chain(others)
        .chain(lists)
        .chain(expiries::names())
        .chain(lines)
        .chain(traces)
}

pub struct Tally {
    sources: Vec<(&'static str, u64)>,
    turn: usize,
    results: BTreeMap<(&'static str, u8), u64>,
    met: BTreeMap<&'static str, u64>,
}

impl Tally {
    pub fn new(names: impl Iterator<Item = &'static str>) -> Tally {
        Tally {
            sources: names.map(|name| (name, 0)).collect(),
            turn: 0,
            results: BTreeMap::new(),
            met: BTreeMap::new(),
        }
    }

    /// The calls that follow are of this source.
    pub fn turn(&mut self, source: usize) {
        self.turn = source;
    }

    /// A call with this outcome.
    pub fn count(&mut self, call: &Call, outcome: &Outcome) {
        self.add_many(call.name(), &[outcome.number]);
        if let Some(verdict) = call.verdict(outcome) {
            self.meet(verdict);
        }
        let place = match call {
            Call::Ask(words, question) if outcome.number != NOT_WELL_FORMED => {
                expiries::asked(words, question)
            }
            Call::Write(_, _, 0) if outcome.number == NO_GAP => Some(NO_GAP_NO_ROOM),
            Call::Write(_, _, ANY_LIST..) if outcome.number == NO_GAP => Some(NO_GAP_IN_ROOM),
            _ => None,
        };
        if let Some(place) = place {
            self.meet(place);
        }
    }

    /// One call with these numbers.
    pub fn add_many(&mut self, name: &'static str, numbers: &[u8]) {
        self.sources[self.turn].1 += 1;
        for &number in numbers {
            *self.results.entry((name, number)).or_default() += 1;
        }
    }

    pub fn meet(&mut self, what: &'static str) {
        *self.met.entry(what).or_default() += 1;
    }

    /// Calls of the present source.
    pub fn calls(&self) -> u64 {
        self.sources[self.turn].1
    }

    pub fn total(&self) -> u64 {
        self.sources.iter().map(|source| source.1).sum()
    }

    /// The sources, the results of the papers and the other things that no call had.
    pub fn missing(&self) -> Vec<String> {
        let sources = self.sources.iter().filter(|source| source.1 == 0);
        let results = RESULTS
            .iter()
            .flat_map(|(name, numbers)| numbers.iter().map(move |number| (*name, *number)))
            .filter(|result| !self.results.contains_key(result))
            .map(|(name, number)| format!("{name} with {number}"));
        let others = to_meet().filter(|what| !self.met.contains_key(what));
        sources
            .map(|source| source.0.to_string())
            .chain(results)
            .chain(others.map(str::to_string))
            .collect()
    }
}

impl fmt::Display for Tally {
    fn fmt(&self, f: &mut fmt::Formatter<'_>) -> fmt::Result {
        for (name, calls) in &self.sources {
            writeln!(f, "{name}: {calls} calls")?;
        }
        for (name, numbers) in RESULTS {
            let met = |number: &u8| self.results.get(&(name, *number)).copied().unwrap_or(0);
            let counts: Vec<String> = numbers
                .iter()
                .map(|n| format!("{n} x {}", met(n)))
                .collect();
            writeln!(f, "{name} gave {}", counts.join(", "))?;
        }
        for what in to_meet() {
            let times = self.met.get(what).copied().unwrap_or(0);
            writeln!(f, "{what}: {times} times")?;
        }
        Ok(())
    }
}
