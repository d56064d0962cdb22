//! Questions as words, and their answers as lines.
//!
//! ```text
//! show LIST                a line a stretch: first day, last day, DTAI;
//!                          then the day from which on it is unknown
//! nybbles LIST             the list as nybbles, in hex
//! text HEX                 a nybble list, in hex, as text
//! dtai LIST MJD            DTAI
//! tai LIST MJD MICROS      TAI
//! utc LIST TAI             MJD MICROS
//! uts LIST MJD MICROS      NANOS
//! unsmooth LIST MJD NANOS  MICROS
//! compare LIST LIST        a line a month at which they part, `=` and the expiry
//!                          MJDs if they differ, what they are to each other
//! longer LIST LIST         the longer list
//! ```
//!
//! A refusal is `!` and its number, and for a list that does not read also a
//! space and the place. `longer` gives no place, and `compare` the number alone.
//! What is no question gets a line that starts with `?`.
//!
//! The fields of a line are what stands between its single spaces; an empty
//! one is a field too. So `show ` asks about the empty list, which ends early.

use std::collections::HashMap;
use std::io::{self, BufRead, BufReader, BufWriter, Read, Write};
use std::rc::Rc;

use crate::calendar::calendar;
use crate::clock::Prepared;
use crate::schedule::Schedule;
use crate::{compare, nybbles, text};

/// The list behind the word `current`.
pub const CURRENT: &[u8] =
    b"6+6+12+12+12+12+12+12+12+18+12+12+24+30+24+12+18+12+12+18+18+18+84+36+42+36+18+125?";

/// A longer line is no question.
pub const LONGEST_LINE: usize = 8_192;

/// How many lists are kept prepared at a time.
const KEPT: usize = 256;

#[derive(Clone, Debug, PartialEq, Eq)]
pub enum Reply {
    /// One line, except for `show` and `compare`.
    Answer(Vec<String>),
    Refused(String),
    NoQuestion,
}

struct List {
    schedule: Schedule,
    prepared: Prepared,
}

type Looked = Result<Rc<List>, Reply>;

/// Answers questions, keeping the lists that it has read.
#[derive(Default)]
pub struct Desk {
    lists: HashMap<Vec<u8>, Looked>,
}

fn list_refused((number, place): (u8, u64)) -> Reply {
    Reply::Refused(format!("!{number} {place}"))
}

/// A number of decimal digits only, at most 2^64 - 1.
fn number(word: &[u8]) -> Option<u64> {
    if word.is_empty() {
        return None;
    }
    word.iter().try_fold(0u64, |n, &b| match b {
        b'0'..=b'9' => n.checked_mul(10)?.checked_add(u64::from(b - b'0')),
        _ => None,
    })
}

fn hex_digit(b: u8) -> Option<u8> {
    char::from(b).to_digit(16).map(|d| d as u8)
}

/// Bytes of an even number of hex digits.
pub fn from_hex(word: &[u8]) -> Option<Vec<u8>> {
    if word.len() % 2 == 1 {
        return None;
    }
    word.chunks_exact(2)
        .map(|pair| Some(hex_digit(pair[0])? << 4 | hex_digit(pair[1])?))
        .collect()
}

pub fn to_hex(bytes: &[u8]) -> String {
    let digits = |b: &u8| [b >> 4, b & 15].map(|d| char::from_digit(d.into(), 16).unwrap_or('?'));
    bytes.iter().flat_map(digits).collect()
}

/// The text list that a field stands for.
fn text_of(word: &[u8]) -> &[u8] {
    match word {
        b"current" => CURRENT,
        list => list,
    }
}

fn date(at: usize) -> String {
    let d = calendar().days[at];
    format!("{:04}-{:02}-{:02}", d.year, d.month, d.day)
}

fn show(list: &List) -> Vec<String> {
    let mut lines = Vec::new();
    for (first, last, dtai) in list.prepared.stretches() {
        lines.push(format!("{} {} {dtai:+}", date(first), date(last)));
    }
    lines.push(format!("{} unknown", date(list.prepared.unknown_from())));
    lines
}

/// A list as it is written. Of one that was read, which expires on the first of a
/// month, none is refused.
fn written(list: Result<Vec<u8>, u8>) -> Result<Vec<u8>, Reply> {
    list.map_err(|number| Reply::Refused(format!("!{number}")))
}

/// A time question's numbers, if it is accepted.
fn timed(refusal: u8, numbers: &[i128]) -> Reply {
    if refusal != 0 {
        return Reply::Refused(format!("!{refusal}"));
    }
    let words: Vec<String> = numbers.iter().map(i128::to_string).collect();
    Reply::Answer(vec![words.join(" ")])
}

impl Desk {
    pub fn new() -> Desk {
        Desk::default()
    }

    fn list(&mut self, word: &[u8]) -> Looked {
        if let Some(found) = self.lists.get(word) {
            return found.clone();
        }
        let looked = match text::parse(text_of(word)) {
            Ok(schedule) => {
                let prepared = Prepared::of(&schedule);
                Ok(Rc::new(List { schedule, prepared }))
            }
            Err(stop) => Err(list_refused(stop)),
        };
        if self.lists.len() == KEPT {
            self.lists.clear();
        }
        self.lists.insert(word.to_vec(), looked.clone());
        looked
    }

    /// The answer to a question given as its fields.
    pub fn reply(&mut self, fields: &[&[u8]]) -> Reply {
        self.try_reply(fields).unwrap_or_else(|refused| refused)
    }

    fn try_reply(&mut self, fields: &[&[u8]]) -> Result<Reply, Reply> {
        let n = |word: &[u8]| number(word).ok_or(Reply::NoQuestion);
        Ok(match *fields {
            [b"show", list] => Reply::Answer(show(&*self.list(list)?)),
            [b"nybbles", list] => {
                let list = self.list(list)?;
                Reply::Answer(vec![to_hex(&written(nybbles::spell(&list.schedule))?)])
            }
            [b"text", hex] => {
                let bytes = from_hex(hex).ok_or(Reply::NoQuestion)?;
                let schedule = nybbles::parse(&bytes).map_err(list_refused)?;
                let list = written(text::spell(&schedule))?;
                Reply::Answer(vec![String::from_utf8_lossy(&list).into_owned()])
            }
            [b"dtai", list, mjd] => {
                let mjd = n(mjd)?;
                let (r, dtai) = self.list(list)?.prepared.dtai(mjd);
                timed(r, &[dtai.into()])
            }
            [b"tai", list, mjd, micros] => {
                let (mjd, micros) = (n(mjd)?, n(micros)?);
                let (r, tai) = self.list(list)?.prepared.utc_to_tai(mjd, micros);
                timed(r, &[tai.into()])
            }
            [b"utc", list, tai] => {
                let tai = n(tai)?;
                let (r, mjd, micros) = self.list(list)?.prepared.tai_to_utc(tai);
                timed(r, &[mjd.into(), micros.into()])
            }
            [b"uts", list, mjd, micros] => {
                let (mjd, micros) = (n(mjd)?, n(micros)?);
                let (r, nanos) = self.list(list)?.prepared.utc_to_uts(mjd, micros);
                timed(r, &[nanos.into()])
            }
            [b"unsmooth", list, mjd, nanos] => {
                let (mjd, nanos) = (n(mjd)?, n(nanos)?);
                let (r, micros) = self.list(list)?.prepared.uts_to_utc(mjd, nanos);
                timed(r, &[micros.into()])
            }
            [b"compare", first, second] => {
                let lines = compare::lines(text_of(first), text_of(second));
                Reply::Answer(lines.map_err(|number| Reply::Refused(number.to_string()))?)
            }
            [b"longer", first, second] => {
                let longer = compare::longer(text_of(first), text_of(second));
                let list = longer.map_err(|number| Reply::Refused(format!("!{number}")))?;
                Reply::Answer(vec![String::from_utf8_lossy(list).into_owned()])
            }
            _ => Reply::NoQuestion,
        })
    }

    /// The answer to a question line, given without its newline.
    pub fn question(&mut self, line: &[u8]) -> Reply {
        if line.len() > LONGEST_LINE {
            return Reply::NoQuestion;
        }
        let fields: Vec<&[u8]> = line.split(|&b| b == b' ').collect();
        self.reply(&fields)
    }

    /// That answer as one line.
    pub fn line(&mut self, line: &[u8]) -> String {
        match self.question(line) {
            Reply::Answer(lines) => lines.join("; "),
            Reply::Refused(line) => line,
            Reply::NoQuestion => "? no question".to_string(),
        }
    }
}

/// Answers every line of the input. The output is flushed when the input read
/// so far is used up, so that one who asks and waits is served too.
pub fn run(input: impl Read, output: impl Write) -> io::Result<()> {
    let mut input = BufReader::with_capacity(1 << 16, input);
    let mut output = BufWriter::with_capacity(1 << 16, output);
    let mut desk = Desk::new();
    let mut line = Vec::new();
    loop {
        if input.buffer().is_empty() {
            output.flush()?;
        }
        line.clear();
        if input.read_until(b'\n', &mut line)? == 0 {
            return output.flush();
        }
        let question = line.strip_suffix(b"\n").unwrap_or(&line);
        output.write_all(desk.line(question).as_bytes())?;
        output.write_all(b"\n")?;
    }
}
