//! A day replayed in pieces, as `leap.h` says, and what its lines are.

use leap::ffi::Words;
use second::replay::State;
use second::Raw;

use crate::call::{second, Call, Outcome, GUARD};

/// Bytes that hold what any line of a trace prints, as `leap.h` says.
const LINE_ROOM: usize = 22;

/// Enough of a line that is not complete, as `leap.h` says.
const HELD: usize = 4_097;

/// A trace, and the words that its day starts from.
#[derive(Clone, Debug, PartialEq, Eq)]
pub struct Day {
    pub current: Box<Words>,
    pub stored: Box<Words>,
    pub trace: Vec<u8>,
}

/// All that a whole day prints, and the words at its end.
#[derive(Debug, PartialEq, Eq)]
pub struct Ended {
    pub printed: Vec<u8>,
    pub current: Box<Words>,
    pub stored: Box<Words>,
}

impl Day {
    /// The call that replays all complete lines at once.
    pub fn whole(&self) -> Call {
        let lines = self.trace.iter().filter(|&&b| b == b'\n').count();
        let room = LINE_ROOM * (lines + 1);
        Call::Replay(
            self.current.clone(),
            self.stored.clone(),
            self.trace.clone(),
            room,
        )
    }

    /// What stands after the last LF.
    pub fn left(&self) -> &[u8] {
        let end = self.trace.iter().rposition(|&b| b == b'\n');
        &self.trace[end.map_or(0, |end| end + 1)..]
    }

    /// What the second program prints for the whole trace at once.
    pub fn by_second(&self) -> Ended {
        let whole = Playing::of(self).after(&second(&self.whole()));
        let end = second(&Call::ReplayEnd(self.left().to_vec(), LINE_ROOM));
        whole.ended(&end)
    }

    /// What the second program prints line by line, each from the words that the
    /// one before it left, with each line; and all of it.
    pub fn line_by_line(&self, mut each: impl FnMut(&[u8], &[u8])) -> Vec<u8> {
        let mut words = (
            Raw::from_words(&self.current),
            Raw::from_words(&self.stored),
        );
        let mut all = Vec::new();
        let complete = &self.trace[..self.trace.len() - self.left().len()];
        for line in complete.split_inclusive(|&b| b == b'\n') {
            let line = &line[..line.len() - 1];
            let mut state = State::new(words.0, words.1);
            let mut printed = Vec::new();
            state.line(line, &mut printed);
            each(line, &printed);
            all.extend(printed);
            words = (state.current().clone(), state.stored().clone());
        }
        if !self.left().is_empty() {
            all.extend(b"!20\n");
        }
        all
    }
}

/// A replay under way: the words, what was printed, and what is held.
pub struct Playing {
    current: Box<Words>,
    stored: Box<Words>,
    printed: Vec<u8>,
    held: Vec<u8>,
}

impl Playing {
    pub fn of(day: &Day) -> Playing {
        Playing {
            current: day.current.clone(),
            stored: day.stored.clone(),
            printed: Vec::new(),
            held: Vec::new(),
        }
    }

    /// A piece comes, behind what is held.
    pub fn read(&mut self, piece: &[u8]) {
        self.held.extend_from_slice(piece);
    }

    /// No line is complete: only so much of this one is kept. Whether that is
    /// less than there was.
    pub fn keep(&mut self) -> bool {
        let longer = self.held.len() > HELD;
        self.held.truncate(HELD);
        longer
    }

    /// The call that replays what is held.
    pub fn call(&self, room: usize) -> Call {
        Call::Replay(
            self.current.clone(),
            self.stored.clone(),
            self.held.clone(),
            room,
        )
    }

    pub fn end_call(&self, room: usize) -> Call {
        Call::ReplayEnd(self.held.clone(), room)
    }

    /// The replay after a call with this outcome.
    pub fn after(mut self, outcome: &Outcome) -> Playing {
        let used = (outcome.values[0] as usize).min(self.held.len());
        self.held.drain(..used);
        self.printed.extend_from_slice(outcome.written());
        self.current.copy_from_slice(&outcome.words[..514]);
        self.stored.copy_from_slice(&outcome.words[514..]);
        self
    }

    /// The day that ends with this outcome.
    pub fn ended(mut self, outcome: &Outcome) -> Ended {
        self.printed.extend_from_slice(outcome.written());
        Ended {
            printed: self.printed,
            current: self.current,
            stored: self.stored,
        }
    }
}

impl Outcome {
    /// What a writer wrote: its count is the last of the numbers.
    fn written(&self) -> &[u8] {
        let written = self.values.last().map_or(0, |&n| n as usize);
        &self.bytes[GUARD..GUARD + written]
    }
}

/// Whether a line that printed this is of some kind.
type Is = fn(&[u8], &[u8]) -> bool;

fn uses(line: &[u8]) -> bool {
    line.starts_with(b"L ")
}

fn asks(line: &[u8]) -> bool {
    line.starts_with(b"Q ")
}

/// Whether a Q has a number for which this holds, its digits being given.
fn has_number(line: &[u8], holds: fn(&[u8]) -> bool) -> bool {
    let digits = |field: &&[u8]| field.iter().all(u8::is_ascii_digit);
    asks(line) && line.split(|&b| b == b' ').filter(digits).any(holds)
}

/// Whether a Q has a time that is not a thousand times its microseconds.
fn is_smoothed(line: &[u8], printed: &[u8]) -> bool {
    let last = |bytes: &[u8]| -> Option<u64> {
        let field = bytes.trim_ascii_end().rsplit(|&b| b == b' ').next()?;
        std::str::from_utf8(field).ok()?.parse().ok()
    };
    match (last(line), last(printed)) {
        (Some(micros), Some(nanos)) => micros.checked_mul(1_000) != Some(nanos),
        _ => false,
    }
}

/// The kinds of lines that must be met, each by its name.
#[rustfmt::skip]
pub const KINDS: [(&str, Is); 37] = [
    ("a line L whose list is used", |line, printed| uses(line) && printed.is_empty()),
    ("a line L that printed !1", |line, printed| uses(line) && printed == b"!1\n"),
    ("a line L that printed !2", |line, printed| uses(line) && printed == b"!2\n"),
    ("a line L that printed !3", |line, printed| uses(line) && printed == b"!3\n"),
    ("a line L that printed !4", |line, printed| uses(line) && printed == b"!4\n"),
    ("a line L that printed !5", |line, printed| uses(line) && printed == b"!5\n"),
    ("a line L that printed !6", |line, printed| uses(line) && printed == b"!6\n"),
    ("a line L that printed !20", |line, printed| uses(line) && printed == b"!20\n"),
    ("a line S", |line, printed| line == b"S" && printed.is_empty()),
    ("a line Z", |line, printed| line == b"Z" && printed.is_empty()),
    ("a line Q with a time", |line, printed| asks(line) && !printed.starts_with(b"!")),
    ("a line Q with a time that is smoothed", |line, printed| asks(line) && is_smoothed(line, printed)),
    ("a line Q with a time of MJD 41317", |_, printed| printed.starts_with(b"41317 ")),
    ("a line Q with a time of MJD 114365", |_, printed| printed.starts_with(b"114365 ")),
    ("a line Q that printed !8", |line, printed| asks(line) && printed == b"!8\n"),
    ("a line Q that printed !9", |line, printed| asks(line) && printed == b"!9\n"),
    ("a line Q that printed !10", |line, printed| asks(line) && printed == b"!10\n"),
    ("a line Q that printed !11", |line, printed| asks(line) && printed == b"!11\n"),
    ("a line Q that printed !20", |line, printed| asks(line) && printed == b"!20\n"),
    ("a line that is another", |line, printed| !uses(line) && !asks(line) && printed == b"!20\n"),
    ("an empty line", |line, _| line.is_empty()),
    ("a line S or Z and more", |line, _| line.len() > 1 && (line[0] == b'S' || line[0] == b'Z')),
    ("a line of lower case", |line, _| line.starts_with(b"l ") || line.starts_with(b"q ")),
    ("a line with two spaces", |line, _| line.windows(2).any(|two| two == b"  ")),
    ("a line that ends with a space", |line, _| line.ends_with(b" ")),
    ("a line that ends with CR", |line, _| line.ends_with(b"\r")),
    ("a line with a byte of 0", |line, _| line.contains(&0)),
    ("a line with a byte of 255", |line, _| line.contains(&255)),
    ("a line of 4095 bytes", |line, _| line.len() == 4_095),
    ("a line L of 4096 bytes that printed its list's number", |line, printed| uses(line) && line.len() == 4_096 && printed != b"!20\n"),
    ("a line of 4097 bytes", |line, _| line.len() == 4_097),
    ("a line of over 4098 bytes", |line, _| line.len() > 4_098),
    ("a line Q with a number of 17 digits", |line, printed| has_number(line, |n| n.len() == 17) && printed != b"!20\n"),
    ("a line Q with a number of 18 digits", |line, printed| has_number(line, |n| n.len() == 18) && printed != b"!20\n"),
    ("a line Q with a number of 19 digits that starts with 0", |line, _| has_number(line, |n| n.len() == 19 && n[0] == b'0')),
    ("a line Q with a number of 19 digits that does not", |line, _| has_number(line, |n| n.len() == 19 && n[0] != b'0')),
    ("a line that printed 22 bytes", |_, printed| printed.len() == 22),
];
