//! A branch's day: its trace, replayed by archive and second program.

use leap::ffi::{self, Words};
use second::replay::State;

use crate::lists::List;
use crate::questions::Instants;

/// Questions between two resets of the day.
const RESET_AFTER: usize = 512;

/// Output that a call is lent.
const ROOM: usize = 4_096;

pub struct Day {
    pub trace: Vec<u8>,
    pub lines: usize,
}

impl Day {
    /// Uses and stores a list, and asks about these instants, with a reset now
    /// and then.
    pub fn new(list: &List, set: &Instants) -> Day {
        let mut trace = [b"L ", &list.text[..], b"\nS\n"].concat();
        for (at, (mjd, micros)) in set.mjd.iter().zip(&set.micros).enumerate() {
            if at % RESET_AFTER == 0 {
                trace.extend(b"Z\n");
            }
            trace.extend(format!("Q {mjd} {micros}\n").into_bytes());
        }
        let lines = trace.iter().filter(|&&b| b == b'\n').count();
        Day { trace, lines }
    }

    /// Replays the day, whose lines are all complete, by calls that use and
    /// write so many bytes.
    fn replay(&self, out: &mut Vec<u8>, mut call: impl FnMut(&[u8], &mut [u8]) -> (u64, u64)) {
        let (mut start, mut room) = (0, [0; ROOM]);
        out.clear();
        while start < self.trace.len() {
            let (used, written) = call(&self.trace[start..], &mut room);
            assert!(used > 0, "a line is not replayed");
            start += used as usize;
            out.extend_from_slice(&room[..written as usize]);
        }
    }

    /// What the archive prints, from blank lists.
    pub fn by_archive(&self, out: &mut Vec<u8>) {
        let (mut current, mut stored): (Words, Words) = ([0; 514], [0; 514]);
        self.replay(out, |trace, room| {
            let (mut used, mut written) = (0, 0);
            ffi::replay(
                &mut current,
                &mut stored,
                trace,
                room,
                &mut used,
                &mut written,
            );
            (used, written)
        });
    }

    /// What the second program prints, from blank lists.
    pub fn by_second(&self, out: &mut Vec<u8>) {
        let mut state = State::default();
        self.replay(out, |trace, room| {
            let (_, used, written) = second::replay::replay(&mut state, trace, room);
            (used, written)
        });
    }
}
