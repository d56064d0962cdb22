//! Why a call gives no answer.

use std::error::Error;
use std::fmt;

/// The refusals, each with its number.
#[derive(Clone, Copy, Debug, PartialEq, Eq, PartialOrd, Ord, Hash)]
#[repr(u8)]
pub enum Refusal {
    /// The list ends early.
    EndsEarly = 1,
    /// A byte that is not allowed there.
    NotAllowed = 2,
    /// A gap malformed or over 999 months.
    BadGap = 3,
    /// Past month 2400, January 2172.
    PastLastMonth = 4,
    /// More than 256 leaps.
    TooManyLeaps = 5,
    /// Something after the end.
    AfterEnd = 6,
    /// The output is shorter than the list, or than the comparison of two
    /// lists, or than what a line of a trace may print.
    OutputShort = 7,
    /// Before 1972: an MJD under 41317, or a TAI under 10,000,000.
    Before1972 = 8,
    /// No such instant.
    NoInstant = 9,
    /// Expired or not yet known.
    NotKnown = 10,
    /// The schedule is not well formed.
    NotWellFormed = 11,
    /// Two lists contradict each other.
    Contradiction = 16,
    /// Rounding the expiry down to its month leaves a gap of 0.
    NoGap = 17,
    /// No line of a trace; it is printed, and returned by no call.
    NoLine = 20,
}

use Refusal::*;

impl Refusal {
    /// All of them, by number.
    pub const ALL: [Refusal; 14] = [
        EndsEarly,
        NotAllowed,
        BadGap,
        PastLastMonth,
        TooManyLeaps,
        AfterEnd,
        OutputShort,
        Before1972,
        NoInstant,
        NotKnown,
        NotWellFormed,
        Contradiction,
        NoGap,
        NoLine,
    ];

    /// The refusal's number.
    pub fn number(self) -> u8 {
        self as u8
    }

    /// The refusal with this number, if there is one.
    pub fn from_number(number: u8) -> Option<Refusal> {
        Refusal::ALL.into_iter().find(|r| r.number() == number)
    }
}

impl fmt::Display for Refusal {
    fn fmt(&self, f: &mut fmt::Formatter<'_>) -> fmt::Result {
        f.write_str(match self {
            EndsEarly => "the list ends early",
            NotAllowed => "a byte that is not allowed there",
            BadGap => "a gap malformed or over 999 months",
            PastLastMonth => "past month 2400, January 2172",
            TooManyLeaps => "more than 256 leaps",
            AfterEnd => "something after the end",
            OutputShort => {
                "the output is shorter than the list, or than the comparison of two lists, or than what a line of a trace may print"
            }
            Before1972 => "before 1972: an MJD under 41317, or a TAI under 10,000,000",
            NoInstant => "no such instant",
            NotKnown => "expired or not yet known",
            NotWellFormed => "the schedule is not well formed",
            Contradiction => "two lists contradict each other",
            NoGap => "rounding the expiry down to its month leaves a gap of 0",
            NoLine => "no line of a trace",
        })
    }
}

impl Error for Refusal {}

/// Why a list does not read, and where.
#[derive(Clone, Copy, Debug, PartialEq, Eq, Hash)]
pub struct ReadError {
    /// Why the reading stopped.
    pub refusal: Refusal,
    /// The byte of a text list, or the nybble of a nybble list, at which the
    /// reading stopped.
    pub place: u64,
}

impl fmt::Display for ReadError {
    fn fmt(&self, f: &mut fmt::Formatter<'_>) -> fmt::Result {
        write!(f, "{} (at place {})", self.refusal, self.place)
    }
}

impl Error for ReadError {
    fn source(&self) -> Option<&(dyn Error + 'static)> {
        Some(&self.refusal)
    }
}
