//! A branch's day replayed from its trace (request 12/14 of 02).
//!
//! ```text
//! L LIST         use the text list, all that follows the space
//! S              store the current list
//! Z              reset: back to the stored list
//! Q MJD MICROS   smoothed time: prints MJD NANOS
//! ```
//!
//! A refusal prints `!` and its number; what is none of these lines `!20`.

use std::cell::OnceCell;
use std::io::{self, BufRead, BufReader, BufWriter, Read, Write};
use std::rc::Rc;

use crate::clock::Prepared;
use crate::refusal::*;
use crate::schedule::Raw;
use crate::text;

/// A longer line, before its LF, is none.
pub const LONGEST_LINE: usize = 4_096;

/// A number of a Q has at most so many digits.
const MOST_DIGITS: usize = 18;

/// A line is replayed only where this much is left of a lent output: the
/// longest thing printed is `114364 86399999999000` with its LF.
pub const ROOM_FOR_A_LINE: usize = 22;

/// What the end of a trace prints of a line that lacks its LF.
const UNENDED: &[u8] = b"!20\n";

/// Words that may or may not stand for a list, and what they answer.
struct List {
    raw: Raw,
    /// Made at the first question; none if the words stand for no list.
    prepared: OnceCell<Option<Prepared>>,
}

impl List {
    fn new(raw: Raw) -> Rc<List> {
        Rc::new(List {
            raw,
            prepared: OnceCell::new(),
        })
    }

    fn utc_to_uts(&self, mjd: u64, micros: u64) -> Result<u64, u8> {
        let prepared = self.prepared.get_or_init(|| Prepared::new(&self.raw));
        let Some(prepared) = prepared else {
            return Err(NOT_WELL_FORMED);
        };
        match prepared.utc_to_uts(mjd, micros) {
            (ACCEPTED, nanos) => Ok(nanos),
            (number, _) => Err(number),
        }
    }
}

/// What a line says to do.
enum Line<'a> {
    Use(&'a [u8]),
    Store,
    Reset,
    Ask { mjd: u64, micros: u64 },
}

impl Line<'_> {
    /// A line given without its LF, if it is one.
    fn of(bytes: &[u8]) -> Option<Line<'_>> {
        if bytes.len() > LONGEST_LINE {
            return None;
        }
        match bytes {
            b"S" => Some(Line::Store),
            b"Z" => Some(Line::Reset),
            [b'L', b' ', list @ ..] => Some(Line::Use(list)),
            [b'Q', b' ', numbers @ ..] => {
                let mut fields = numbers.split(|&b| b == b' ');
                let mjd = number(fields.next()?)?;
                let micros = number(fields.next()?)?;
                match fields.next() {
                    None => Some(Line::Ask { mjd, micros }),
                    Some(_) => None,
                }
            }
            _ => None,
        }
    }
}

/// A number of 1 to 18 decimal digits.
fn number(field: &[u8]) -> Option<u64> {
    if field.is_empty() || field.len() > MOST_DIGITS {
        return None;
    }
    field.iter().try_fold(0, |n, &b| match b {
        b'0'..=b'9' => Some(10 * n + u64::from(b - b'0')),
        _ => None,
    })
}

/// The current and the stored list.
pub struct State {
    current: Rc<List>,
    stored: Rc<List>,
}

impl Default for State {
    /// Both blank, as at the start of a day.
    fn default() -> State {
        State::new(Raw::blank(), Raw::blank())
    }
}

impl State {
    pub fn new(current: Raw, stored: Raw) -> State {
        State {
            current: List::new(current),
            stored: List::new(stored),
        }
    }

    pub fn current(&self) -> &Raw {
        &self.current.raw
    }

    pub fn stored(&self) -> &Raw {
        &self.stored.raw
    }

    /// Replays a line, given without its LF; what it prints is put behind `out`.
    pub fn line(&mut self, line: &[u8], out: &mut Vec<u8>) {
        let printed = match Line::of(line) {
            None => Err(NO_LINE),
            Some(Line::Store) => {
                self.stored = self.current.clone();
                return;
            }
            Some(Line::Reset) => {
                self.current = self.stored.clone();
                return;
            }
            Some(Line::Use(list)) => match text::parse(list) {
                Ok(schedule) => {
                    self.current = List::new(schedule.to_raw());
                    return;
                }
                Err((number, _)) => Err(number),
            },
            Some(Line::Ask { mjd, micros }) => {
                let uts = self.current.utc_to_uts(mjd, micros);
                uts.map(|nanos| (mjd, nanos))
            }
        };
        let written = match printed {
            Ok((mjd, nanos)) => writeln!(out, "{mjd} {nanos}"),
            Err(number) => writeln!(out, "!{number}"),
        };
        written.expect("a vector takes all that is written");
    }
}

/// Replays the complete lines of a piece of a trace, as long as a line has room
/// in `out`: the number, how many bytes of the piece are used, and how many are
/// written.
pub fn replay(state: &mut State, piece: &[u8], out: &mut [u8]) -> (u8, u64, u64) {
    if out.len() < ROOM_FOR_A_LINE {
        return (OUTPUT_TOO_SHORT, 0, 0);
    }
    let (mut used, mut written) = (0, 0);
    let mut printed = Vec::new();
    while out.len() - written >= ROOM_FOR_A_LINE {
        let left = &piece[used..];
        let Some(length) = left.iter().position(|&b| b == b'\n') else {
            break;
        };
        printed.clear();
        state.line(&left[..length], &mut printed);
        out[written..written + printed.len()].copy_from_slice(&printed);
        written += printed.len();
        used += length + 1;
    }
    (ACCEPTED, used as u64, written as u64)
}

/// Writes what the end of a trace prints, where `left` stands after the last LF:
/// the number and how many bytes.
pub fn replay_end(left: &[u8], out: &mut [u8]) -> (u8, u64) {
    let printed = if left.is_empty() { b"" } else { UNENDED };
    text::deliver(Ok(printed.to_vec()), out)
}

/// Reads a line into `line`, without its LF and never more than one byte too
/// many of it, and says whether it had its LF.
fn read_line(input: &mut impl BufRead, line: &mut Vec<u8>) -> io::Result<bool> {
    line.clear();
    loop {
        let buffer = input.fill_buf()?;
        let end = buffer.iter().position(|&b| b == b'\n');
        let part = &buffer[..end.unwrap_or(buffer.len())];
        let kept = part.len().min(LONGEST_LINE + 1 - line.len());
        line.extend_from_slice(&part[..kept]);
        let (taken, at_end) = (part.len(), buffer.is_empty());
        match end {
            Some(_) => {
                input.consume(taken + 1);
                return Ok(true);
            }
            None if at_end => return Ok(false),
            None => input.consume(taken),
        }
    }
}

/// Replays a day from its start. The output is flushed when the input read so
/// far holds no further line, so that it comes as the lines come.
pub fn run(input: impl Read, output: impl Write) -> io::Result<()> {
    let mut input = BufReader::with_capacity(1 << 16, input);
    let mut output = BufWriter::with_capacity(1 << 16, output);
    let mut state = State::default();
    let (mut line, mut printed) = (Vec::new(), Vec::new());
    loop {
        if !input.buffer().contains(&b'\n') {
            output.flush()?;
        }
        if !read_line(&mut input, &mut line)? {
            break;
        }
        printed.clear();
        state.line(&line, &mut printed);
        output.write_all(&printed)?;
    }
    if !line.is_empty() {
        output.write_all(UNENDED)?;
    }
    output.flush()
}
