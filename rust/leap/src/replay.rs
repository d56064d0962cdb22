//! A branch's day, replayed from its trace.

use crate::ffi;
use crate::schedule::{answer, Mjd, Schedule};

/// Enough of a line that is not complete, as `leap.h` says.
const HELD: usize = 4_097;

/// Output that a call is lent; more than the 22 bytes that a line may print.
const ROOM: usize = 4_096;

/// The replay of a trace: the current and the stored list, and the start of a
/// line that is not complete, at most 4,097 bytes of it.
///
/// A trace has lines, each ended by LF: `L` and a text list (use it), `S` (store
/// the current list), `Z` (reset: back to the stored one) and `Q` with MJD and
/// microseconds, which prints the day and the UTS nanoseconds. A list or a
/// question that is refused prints `!` and the number, what is no line `!20`.
///
/// ```
/// # use leap::Replay;
/// let mut day = Replay::new();
/// let mut printed = Vec::new();
/// // Nothing is known before the first list.
/// day.feed(b"Q 41498 0\n", &mut printed);
/// assert_eq!(printed, b"!11\n");
///
/// printed.clear();
/// day.feed(b"L 6+5?\nS\nL 6-5?\nQ 41498 86400000000\n", &mut printed);
/// assert_eq!(printed, b"!9\n"); // 6-5? deletes that second
///
/// printed.clear();
/// day.feed(b"Z\nQ 41498 86400000000\n", &mut printed);
/// assert_eq!(printed, b"41498 86399001000000\n");
/// ```
#[derive(Clone, Debug, PartialEq, Eq)]
pub struct Replay {
    current: Schedule,
    stored: Schedule,
    held: Vec<u8>,
}

impl Default for Replay {
    fn default() -> Replay {
        Replay::new()
    }
}

impl Replay {
    /// The start of a day: both lists are blank, and every `Q` prints `!11`.
    pub fn new() -> Replay {
        let blank = Schedule::new(&[], Mjd(0));
        Replay::from_lists(blank.clone(), blank)
    }

    /// A day that goes on from these lists, at the start of a line. A schedule
    /// that is not well formed is kept as it is, and under it every `Q` prints
    /// `!11`.
    ///
    /// ```
    /// # use leap::{Mjd, Replay, Schedule};
    /// let list = Schedule::from_text(b"6+5?")?;
    /// let mut day = Replay::from_lists(Schedule::new(&[], Mjd(0)), list.clone());
    /// let mut printed = Vec::new();
    /// day.feed(b"Z\nQ 41498 7\n", &mut printed);
    /// assert_eq!(printed, b"41498 7000\n");
    /// assert_eq!(day.current(), &list);
    /// # Ok::<(), leap::ReadError>(())
    /// ```
    pub fn from_lists(current: Schedule, stored: Schedule) -> Replay {
        Replay {
            current,
            stored,
            held: Vec::new(),
        }
    }

    /// The list in use.
    pub fn current(&self) -> &Schedule {
        &self.current
    }

    /// The list that a `Z` goes back to.
    pub fn stored(&self) -> &Schedule {
        &self.stored
    }

    /// Replays what comes next of the trace, which may end within a line, and
    /// puts what the lines that are now complete print behind `out`.
    ///
    /// ```
    /// # use leap::Replay;
    /// let mut day = Replay::new();
    /// let mut printed = Vec::new();
    /// for byte in b"L 6+5?\nQ 41498 0\n" {
    ///     day.feed(&[*byte], &mut printed);
    /// }
    /// assert_eq!(printed, b"41498 0\n");
    /// ```
    pub fn feed(&mut self, bytes: &[u8], out: &mut Vec<u8>) {
        let mut rest = bytes;
        if !self.held.is_empty() {
            let Some(end) = bytes.iter().position(|&b| b == b'\n') else {
                return self.hold(bytes);
            };
            self.hold(&bytes[..end]);
            let mut begun = std::mem::take(&mut self.held);
            begun.push(b'\n');
            self.lines(&begun, out);
            rest = &bytes[end + 1..];
        }
        let used = self.lines(rest, out);
        self.hold(&rest[used..]);
    }

    /// Puts what the end of the trace prints behind `out`: `!20`, if its last
    /// line lacks its LF. The lists stay, and what is fed next starts a line.
    ///
    /// ```
    /// # use leap::Replay;
    /// let mut day = Replay::new();
    /// let mut printed = Vec::new();
    /// day.feed(b"S\nZ", &mut printed);
    /// assert_eq!(printed, b"");
    /// day.end(&mut printed);
    /// assert_eq!(printed, b"!20\n");
    /// ```
    pub fn end(&mut self, out: &mut Vec<u8>) {
        let (mut room, mut written) = ([0; ROOM], 0);
        let ended = answer(ffi::replay_end(&self.held, &mut room, &mut written));
        ended.expect("there is room for what the end prints");
        out.extend_from_slice(&room[..written as usize]);
        self.held.clear();
    }

    /// Replays the complete lines of a piece, and gives how many bytes they are.
    fn lines(&mut self, piece: &[u8], out: &mut Vec<u8>) -> usize {
        let mut room = [0; ROOM];
        let mut start = 0;
        loop {
            let (mut used, mut written) = (0, 0);
            let replayed = answer(ffi::replay(
                self.current.words_mut(),
                self.stored.words_mut(),
                &piece[start..],
                &mut room,
                &mut used,
                &mut written,
            ));
            replayed.expect("there is room for what a line prints");
            out.extend_from_slice(&room[..written as usize]);
            // Never more than the piece's own length.
            start += used as usize;
            if used == 0 {
                return start;
            }
        }
    }

    /// Keeps the start of a line: what is beyond `HELD` does not matter.
    fn hold(&mut self, bytes: &[u8]) {
        let more = bytes.len().min(HELD - self.held.len());
        self.held.extend_from_slice(&bytes[..more]);
    }
}
