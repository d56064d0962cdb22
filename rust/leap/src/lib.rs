//! Leap second lists, TAI, UTC and smoothed time (UTS), answered by the proved
//! archive `libleap.a`. This crate adds types and no rule of its own.
//!
//! A [`Schedule`] is read from a list, or made from parts, and then asked:
//!
//! ```
//! use leap::{Mjd, Schedule, UtcMicros, UtsNanos};
//!
//! let schedule = Schedule::from_text(b"6+5?")?;
//! // The last second of 30 June 1972, which was inserted.
//! let (day, inserted) = (Mjd(41_498), UtcMicros(86_400_000_000));
//! assert_eq!(schedule.dtai(day), Ok(10));
//! assert_eq!(schedule.utc_to_uts(day, inserted), Ok(UtsNanos(86_399_001_000_000)));
//! assert_eq!(schedule.dtai(Mjd(41_499)), Ok(11));
//! # Ok::<(), leap::ReadError>(())
//! ```
//!
//! What has no answer is refused, with one of the numbers of [`Refusal`]:
//!
//! ```
//! use leap::{Mjd, ReadError, Refusal, Schedule};
//!
//! let error = Schedule::from_text(b"1000?").unwrap_err();
//! assert_eq!(error, ReadError { refusal: Refusal::BadGap, place: 3 });
//! assert_eq!(error.to_string(), "a gap malformed or over 999 months (at place 3)");
//!
//! let schedule = Schedule::from_text(b"6+5?")?;
//! assert_eq!(schedule.dtai(Mjd(41_316)), Err(Refusal::Before1972));
//! // 1 December 1972, the start of month 11, is the first day that the list does not know.
//! assert_eq!(schedule.dtai(Mjd(41_652)), Err(Refusal::NotKnown));
//! # Ok::<(), ReadError>(())
//! ```
//!
//! Many instants are asked in one call, which checks the schedule only once
//! (and which [`ffi`] has over slices that the caller lends):
//!
//! ```
//! use leap::{Mjd, Refusal, Schedule, TaiMicros, UtcMicros};
//!
//! let schedule = Schedule::from_text(b"6+5?")?;
//! let instants = [
//!     (Mjd(41_316), UtcMicros(0)),
//!     (Mjd(41_317), UtcMicros(0)),
//!     (Mjd(41_498), UtcMicros(86_400_000_000)),
//! ];
//! assert_eq!(schedule.utc_to_tai_many(&instants), [
//!     Err(Refusal::Before1972),
//!     Ok(TaiMicros(10_000_000)),
//!     Ok(TaiMicros(15_724_810_000_000)),
//! ]);
//! # Ok::<(), leap::ReadError>(())
//! ```
//!
//! A schedule made from parts, which may expire on any day ([`Schedule::new`]), is
//! checked by whatever it is asked:
//!
//! ```
//! use leap::{Leap, Mjd, Refusal, Schedule, Sign};
//!
//! let leaps = [Leap { month: 6, sign: Sign::Positive }];
//! let schedule = Schedule::new(&leaps, Mjd(41_652));
//! assert_eq!(schedule.to_text(), Ok("6+5?".to_string()));
//! assert_eq!(schedule.to_nybbles(), Ok(vec![0x90, 0xf4]));
//!
//! // It expires on 1 July 1972, so that it does not know of its own leap.
//! let early = Schedule::new(&leaps, Mjd(41_499));
//! assert_eq!(early.to_text(), Err(Refusal::NotWellFormed));
//! assert_eq!(early.dtai(Mjd(41_317)), Err(Refusal::NotWellFormed));
//! ```
//!
//! Two lists are compared, and of two that do not contradict each other the longer
//! one is handed back, as the caller's own bytes:
//!
//! ```
//! use leap::Refusal;
//!
//! let comparison = leap::compare(b"6+6+5?", b"6+12+5?")?;
//! assert_eq!(comparison, "12 + 0\n18 ? +\n= 41834 42017\ncontradict\n");
//!
//! assert_eq!(leap::longer(b"6?", b"6+5?"), Ok(&b"6+5?"[..]));
//! assert_eq!(leap::longer(b"6+6+5?", b"6+12+5?"), Err(Refusal::Contradiction));
//! # Ok::<(), Refusal>(())
//! ```
//!
//! A stored list may be replaced by one that extends it, which keeps every answer:
//!
//! ```
//! use leap::Schedule;
//!
//! let stored = Schedule::from_text(b"6+5?")?;
//! let offered = Schedule::from_text(b"6+6+5?")?;
//! assert_eq!(offered.extends(&stored), Ok(true));
//! assert_eq!(stored.extends(&offered), Ok(false));
//! # Ok::<(), leap::ReadError>(())
//! ```
//!
//! A branch's day is replayed from its trace, in pieces of any size:
//!
//! ```
//! use leap::Replay;
//!
//! let mut day = Replay::new();
//! let mut printed = Vec::new();
//! // Use a list, and ask for smoothed time.
//! day.feed(b"L 6+5?\nQ 41498 864000", &mut printed);
//! day.feed(b"00000\nQ yesterday\n", &mut printed);
//! day.end(&mut printed);
//! assert_eq!(printed, b"41498 86399001000000\n!20\n");
//! ```
//!
//! The counts of the three time scales are types of their own, so that none is
//! put in another's place:
//!
//! ```compile_fail,E0308
//! use leap::{Mjd, Schedule, TaiMicros};
//!
//! let schedule = Schedule::from_text(b"6+5?").unwrap();
//! schedule.utc_to_uts(Mjd(41_498), TaiMicros(0));
//! ```

#![deny(unsafe_op_in_unsafe_fn)]
#![deny(missing_docs)]

mod compare;
pub mod ffi;
mod many;
mod refusal;
mod replay;
mod schedule;

pub use compare::{compare, longer};
pub use refusal::{ReadError, Refusal};
pub use replay::Replay;
pub use schedule::{Leap, Mjd, Schedule, Sign, TaiMicros, UtcMicros, UtsNanos};
