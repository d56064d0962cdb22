//! Leap second lists, TAI, UTC and smoothed time (UTS), written a second time
//! from the papers alone so that another implementation can be compared with it.
//!
//! The papers are `01-scope.md` and, for requests such as 7/14,
//! `02-change-requests.md`; "000" is the memo on the list formats and "002" the
//! proposal for UTS.
//!
//! Means used here: the calendar is walked a day at a time; a schedule is a
//! strip of months, each with its leap, and a day of that walk, its expiry; TAI is
//! elapsed time summed month by month; UTS is document 002's own algorithm; both
//! ways back are searches; two lists are compared a month at a time; a trace is
//! replayed a line at a time.

#![forbid(unsafe_code)]

pub mod ask;
pub mod calendar;
pub mod clock;
pub mod compare;
pub mod figures;
pub mod months;
pub mod nybbles;
pub mod plain;
pub mod refusal;
pub mod replay;
pub mod schedule;
pub mod smooth;
pub mod text;

pub use clock::{dtai, tai_to_utc, utc_to_tai, utc_to_uts, uts_to_utc, Prepared};
pub use compare::{compare_text, extends, longer_text};
pub use nybbles::{read_nybbles, write_nybbles};
pub use schedule::{well_formed, Mark, Raw, Reading, Schedule};
pub use text::{read_text, write_text};
