//! A call of the interface, and what each of the two programs makes of it.

use leap::ffi::{self, Words};
use second::replay::State;
use second::Raw;

#[derive(Clone, Copy, Debug, PartialEq, Eq)]
pub enum Format {
    Text,
    Nybbles,
}

#[derive(Clone, Copy, Debug, PartialEq, Eq)]
pub enum Kind {
    Dtai,
    UtcToTai,
    TaiToUtc,
    UtcToUts,
    UtsToUtc,
}

/// A question with its numbers: the day and the time of day, or the day and 0
/// (DTAI), or the TAI and 0.
#[derive(Clone, Copy, Debug, PartialEq, Eq)]
pub struct Question {
    pub kind: Kind,
    pub first: u64,
    pub second: u64,
}

#[derive(Clone, Debug, PartialEq, Eq)]
pub enum Call {
    Read(Format, Vec<u8>),
    /// A schedule, and the room that it is to be written to.
    Write(Format, Box<Words>, usize),
    Ask(Box<Words>, Question),
    /// Two text lists, and the room for their comparison.
    Compare(Vec<u8>, Vec<u8>, usize),
    /// Two text lists, of which the longer is handed back.
    Longer(Vec<u8>, Vec<u8>),
    /// Whether the first schedule extends the second.
    Extends(Box<Words>, Box<Words>),
    /// The current and the stored schedule, a piece of a trace, and the room for
    /// what its lines print.
    Replay(Box<Words>, Box<Words>, Vec<u8>, usize),
    /// What is left of a trace, and the room for what its end prints.
    ReplayEnd(Vec<u8>, usize),
}

/// All that a call returns or may change.
#[derive(Clone, Debug, PartialEq, Eq)]
pub struct Outcome {
    pub number: u8,
    /// The output numbers, in their order in the header. A part stands as its
    /// start's place in the bytes of `Beside`, and its length.
    pub values: Vec<i128>,
    /// A reader's schedule, or a replay's two.
    pub words: Vec<u32>,
    /// A writer's room, with `GUARD` bytes on either side of it.
    pub bytes: Vec<u8>,
}

pub type Program = fn(&Call) -> Outcome;

/// Bytes before and after a writer's room, which it must not touch.
pub const GUARD: usize = 16;

/// What the outputs hold before a call.
pub const FILL: u64 = 0xa5a5_a5a5_a5a5_a5a5;
pub const FILL_DTAI: i32 = 0x5a5a_5a5a;

pub fn filled_words() -> Words {
    std::array::from_fn(|i| i as u32 ^ 0xa5a5_a5a5)
}

pub fn filled_bytes(length: usize) -> Vec<u8> {
    (0..length).map(|i| i as u8 ^ 0xa5).collect()
}

/// What a part is before a call.
pub const FILL_PART: &[u8] = b"not set";

/// Two lists in one allocation, with a space between: no byte of one is a byte
/// of the other, and an empty list has a place too.
struct Beside {
    bytes: Vec<u8>,
    first: usize,
}

impl Beside {
    fn new(first: &[u8], second: &[u8]) -> Beside {
        Beside {
            bytes: [first, b" ", second].concat(),
            first: first.len(),
        }
    }

    fn both(&self) -> (&[u8], &[u8]) {
        (&self.bytes[..self.first], &self.bytes[self.first + 1..])
    }

    fn handed(&self, number: u8, part: &[u8]) -> Outcome {
        let place = part.as_ptr() as i128 - self.bytes.as_ptr() as i128;
        answer(number, vec![place, part.len() as i128])
    }
}

impl Call {
    /// The function's name, without `leap_`.
    pub fn name(&self) -> &'static str {
        match self {
            Call::Read(Format::Text, _) => "read_text",
            Call::Read(Format::Nybbles, _) => "read_nybbles",
            Call::Write(Format::Text, ..) => "write_text",
            Call::Write(Format::Nybbles, ..) => "write_nybbles",
            Call::Ask(_, question) => question.kind.name(),
            Call::Compare(..) => "compare_text",
            Call::Longer(..) => "longer_text",
            Call::Extends(..) => "extends",
            Call::Replay(..) => "replay",
            Call::ReplayEnd(..) => "replay_end",
        }
    }

    /// What the outcome says of two lists, if the call asks about two.
    pub fn verdict(&self, outcome: &Outcome) -> Option<&'static str> {
        if outcome.number != 0 {
            return None;
        }
        match self {
            Call::Compare(..) => {
                let end = GUARD + outcome.values[0] as usize;
                let written = &outcome.bytes[GUARD..end];
                let says = VERDICTS.iter().find(|v| written.ends_with(v.0));
                says.map(|v| v.1)
            }
            Call::Longer(..) if outcome.values[0] == 0 => Some(FIRST_IS_LONGER),
            Call::Longer(..) => Some(SECOND_IS_LONGER),
            Call::Extends(..) if outcome.values[0] == 1 => Some(EXTENDS),
            Call::Extends(..) => Some(EXTENDS_NOT),
            _ => None,
        }
    }

    pub fn differs(&self) -> bool {
        archive(self) != second(self)
    }
}

impl Kind {
    pub const ALL: [Kind; 5] = [
        Kind::Dtai,
        Kind::UtcToTai,
        Kind::TaiToUtc,
        Kind::UtcToUts,
        Kind::UtsToUtc,
    ];

    pub fn name(self) -> &'static str {
        match self {
            Kind::Dtai => "dtai",
            Kind::UtcToTai => "utc_to_tai",
            Kind::TaiToUtc => "tai_to_utc",
            Kind::UtcToUts => "utc_to_uts",
            Kind::UtsToUtc => "uts_to_utc",
        }
    }
}

/// A comparison's last line, and what is counted for it.
pub const VERDICTS: [(&[u8], &str); 4] = [
    (b"same\n", "compare_text said same"),
    (b"extends 1\n", "compare_text said extends 1"),
    (b"extends 2\n", "compare_text said extends 2"),
    (b"contradict\n", "compare_text said contradict"),
];
pub const FIRST_IS_LONGER: &str = "longer_text handed back the first";
pub const SECOND_IS_LONGER: &str = "longer_text handed back the second";
pub const EXTENDS: &str = "extends said yes";
pub const EXTENDS_NOT: &str = "extends said no";

/// The proved archive's outcome.
pub fn archive(call: &Call) -> Outcome {
    let mut value = FILL;
    match call {
        Call::Read(format, list) => {
            let mut words = filled_words();
            let number = match format {
                Format::Text => ffi::read_text(list, &mut words, &mut value),
                Format::Nybbles => ffi::read_nybbles(list, &mut words, &mut value),
            };
            reading(number, value, &words)
        }
        Call::Write(format, words, room) => {
            let mut bytes = filled_bytes(room + 2 * GUARD);
            let out = &mut bytes[GUARD..GUARD + room];
            let number = match format {
                Format::Text => ffi::write_text(words, out, &mut value),
                Format::Nybbles => ffi::write_nybbles(words, out, &mut value),
            };
            writing(number, value, bytes)
        }
        Call::Ask(words, question) => {
            let (a, b) = (question.first, question.second);
            let number = match question.kind {
                Kind::Dtai => {
                    let mut dtai = FILL_DTAI;
                    let number = ffi::dtai(words, a, &mut dtai);
                    return answer(number, vec![dtai.into()]);
                }
                Kind::TaiToUtc => {
                    let mut micros = FILL;
                    let number = ffi::tai_to_utc(words, a, &mut value, &mut micros);
                    return answer(number, vec![value.into(), micros.into()]);
                }
                Kind::UtcToTai => ffi::utc_to_tai(words, a, b, &mut value),
                Kind::UtcToUts => ffi::utc_to_uts(words, a, b, &mut value),
                Kind::UtsToUtc => ffi::uts_to_utc(words, a, b, &mut value),
            };
            answer(number, vec![value.into()])
        }
        Call::Compare(first, second, room) => {
            let mut bytes = filled_bytes(room + 2 * GUARD);
            let out = &mut bytes[GUARD..GUARD + room];
            let number = ffi::compare_text(first, second, out, &mut value);
            writing(number, value, bytes)
        }
        Call::Longer(first, second) => {
            let lists = Beside::new(first, second);
            let (first, second) = lists.both();
            let mut part = FILL_PART;
            let number = ffi::longer_text(first, second, &mut part);
            lists.handed(number, part)
        }
        Call::Extends(longer, shorter) => {
            let mut yes = FILL as u8;
            let number = ffi::extends(longer, shorter, &mut yes);
            answer(number, vec![yes.into()])
        }
        Call::Replay(current, stored, trace, room) => {
            let (mut current, mut stored) = (**current, **stored);
            let mut bytes = filled_bytes(room + 2 * GUARD);
            let out = &mut bytes[GUARD..GUARD + room];
            let mut used = FILL;
            let number = ffi::replay(&mut current, &mut stored, trace, out, &mut used, &mut value);
            replaying(number, [used, value], &current, &stored, bytes)
        }
        Call::ReplayEnd(left, room) => {
            let mut bytes = filled_bytes(room + 2 * GUARD);
            let out = &mut bytes[GUARD..GUARD + room];
            let number = ffi::replay_end(left, out, &mut value);
            writing(number, value, bytes)
        }
    }
}

/// The second program's outcome.
pub fn second(call: &Call) -> Outcome {
    match call {
        Call::Read(format, list) => {
            let r = match format {
                Format::Text => second::read_text(list),
                Format::Nybbles => second::read_nybbles(list),
            };
            reading(r.number, r.place, &r.schedule.to_words())
        }
        Call::Write(format, words, room) => {
            let mut bytes = filled_bytes(room + 2 * GUARD);
            let out = &mut bytes[GUARD..GUARD + room];
            let raw = Raw::from_words(words);
            let (number, written) = match format {
                Format::Text => second::write_text(&raw, out),
                Format::Nybbles => second::write_nybbles(&raw, out),
            };
            writing(number, written, bytes)
        }
        Call::Ask(words, question) => {
            let raw = Raw::from_words(words);
            let (a, b) = (question.first, question.second);
            let (number, value) = match question.kind {
                Kind::Dtai => {
                    let (number, dtai) = second::dtai(&raw, a);
                    return answer(number, vec![dtai.into()]);
                }
                Kind::TaiToUtc => {
                    let (number, mjd, micros) = second::tai_to_utc(&raw, a);
                    return answer(number, vec![mjd.into(), micros.into()]);
                }
                Kind::UtcToTai => second::utc_to_tai(&raw, a, b),
                Kind::UtcToUts => second::utc_to_uts(&raw, a, b),
                Kind::UtsToUtc => second::uts_to_utc(&raw, a, b),
            };
            answer(number, vec![value.into()])
        }
        Call::Compare(first, second, room) => {
            let mut bytes = filled_bytes(room + 2 * GUARD);
            let out = &mut bytes[GUARD..GUARD + room];
            let (number, written) = second::compare_text(first, second, out);
            writing(number, written, bytes)
        }
        Call::Longer(first, second) => {
            let lists = Beside::new(first, second);
            let (first, second) = lists.both();
            let (number, part) = second::longer_text(first, second);
            lists.handed(number, part)
        }
        Call::Extends(longer, shorter) => {
            let [longer, shorter] = [longer, shorter].map(|words| Raw::from_words(words));
            let (number, yes) = second::extends(&longer, &shorter);
            answer(number, vec![yes.into()])
        }
        Call::Replay(current, stored, trace, room) => {
            let [current, stored] = [current, stored].map(|words| Raw::from_words(words));
            let mut state = State::new(current, stored);
            let mut bytes = filled_bytes(room + 2 * GUARD);
            let out = &mut bytes[GUARD..GUARD + room];
            let (number, used, written) = second::replay::replay(&mut state, trace, out);
            let [current, stored] = [state.current(), state.stored()].map(Raw::to_words);
            replaying(number, [used, written], &current, &stored, bytes)
        }
        Call::ReplayEnd(left, room) => {
            let mut bytes = filled_bytes(room + 2 * GUARD);
            let out = &mut bytes[GUARD..GUARD + room];
            let (number, written) = second::replay::replay_end(left, out);
            writing(number, written, bytes)
        }
    }
}

fn reading(number: u8, place: u64, words: &Words) -> Outcome {
    Outcome {
        number,
        values: vec![place.into()],
        words: words.to_vec(),
        bytes: Vec::new(),
    }
}

fn writing(number: u8, written: u64, bytes: Vec<u8>) -> Outcome {
    Outcome {
        number,
        values: vec![written.into()],
        words: Vec::new(),
        bytes,
    }
}

fn replaying(
    number: u8,
    values: [u64; 2],
    current: &Words,
    stored: &Words,
    bytes: Vec<u8>,
) -> Outcome {
    Outcome {
        number,
        values: values.map(i128::from).to_vec(),
        words: [&current[..], &stored[..]].concat(),
        bytes,
    }
}

fn answer(number: u8, values: Vec<i128>) -> Outcome {
    Outcome {
        number,
        values,
        words: Vec::new(),
        bytes: Vec::new(),
    }
}
