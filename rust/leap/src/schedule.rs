//! The schedule and what it can be asked.

use std::fmt;

use crate::ffi::{self, Words};
use crate::refusal::{ReadError, Refusal};

/// A day: its Modified Julian Day number. MJD 41317 is 1 January 1972.
#[derive(Clone, Copy, Debug, PartialEq, Eq, PartialOrd, Ord, Hash)]
pub struct Mjd(pub u64);

/// UTC microseconds of a day.
#[derive(Clone, Copy, Debug, PartialEq, Eq, PartialOrd, Ord, Hash)]
pub struct UtcMicros(pub u64);

/// UTS nanoseconds of a day, which always has 86,400 seconds.
#[derive(Clone, Copy, Debug, PartialEq, Eq, PartialOrd, Ord, Hash)]
pub struct UtsNanos(pub u64);

/// Microseconds from 1972-01-01 00:00:00 TAI.
#[derive(Clone, Copy, Debug, PartialEq, Eq, PartialOrd, Ord, Hash)]
pub struct TaiMicros(pub u64);

/// Whether a leap inserts a second or deletes one.
#[derive(Clone, Copy, Debug, PartialEq, Eq, Hash)]
pub enum Sign {
    /// A second is inserted.
    Positive,
    /// A second is deleted.
    Negative,
}

/// A leap at the end of the day before a month starts (month 0 is January 1972).
#[derive(Clone, Copy, Debug, PartialEq, Eq, Hash)]
pub struct Leap {
    /// The month that starts after the leap.
    pub month: u32,
    /// Whether it inserts or deletes a second.
    pub sign: Sign,
}

const PLACES: usize = 256;
const COUNT: usize = 512;
const EXPIRY: usize = 513;
const BLANK: Words = [0; 514];

/// Room for any list, as `leap.h` says.
const TEXT_ROOM: usize = 752;
const NYBBLES_ROOM: usize = 390;

/// Leaps and an expiry day, well formed or not. Where it is not, every question is
/// refused with [`Refusal::NotWellFormed`].
#[derive(Clone, PartialEq, Eq)]
pub struct Schedule {
    words: Box<Words>,
}

impl Schedule {
    /// Reads a text list, which expires on the first day of a month.
    ///
    /// ```
    /// # use leap::{Mjd, Refusal, Schedule};
    /// let schedule = Schedule::from_text(b"6+6-5?")?;
    /// // Month 17 is June 1973.
    /// assert_eq!(schedule.expiry_mjd(), Ok(Mjd(41_834)));
    /// let error = Schedule::from_text(b"6+6").unwrap_err();
    /// assert_eq!((error.refusal, error.place), (Refusal::EndsEarly, 3));
    /// # Ok::<(), leap::ReadError>(())
    /// ```
    pub fn from_text(list: &[u8]) -> Result<Schedule, ReadError> {
        read(list, ffi::read_text)
    }

    /// Reads a nybble list, upper half of each byte first. It expires on the first
    /// day of a month.
    ///
    /// ```
    /// # use leap::{Refusal, Schedule};
    /// let schedule = Schedule::from_nybbles(&[0x0f])?;
    /// assert_eq!(schedule.to_text(), Ok("6+5?".to_string()));
    /// let error = Schedule::from_nybbles(&[0x9d]).unwrap_err();
    /// assert_eq!((error.refusal, error.place), (Refusal::EndsEarly, 2));
    /// # Ok::<(), leap::ReadError>(())
    /// ```
    pub fn from_nybbles(list: &[u8]) -> Result<Schedule, ReadError> {
        read(list, ffi::read_nybbles)
    }

    /// The schedule of these leaps and expiry day, as they are. One of more than 256
    /// leaps keeps their count, and so isn't well formed; nor is one that expires
    /// after day `u32::MAX`, which then stands in its place.
    ///
    /// The expiry may be any day of a month, as in the official tables. That of a
    /// text or nybble list is the first of a month: what is written reads back
    /// rounded down to it, as a schedule that the written one extends.
    ///
    /// ```
    /// # use leap::{Leap, Mjd, Refusal, Schedule, Sign, UtcMicros, UtsNanos};
    /// let leaps = [Leap { month: 6, sign: Sign::Positive }];
    /// // 28 December 1972. The day before it is known to its last microsecond.
    /// let exact = Schedule::new(&leaps, Mjd(41_679));
    /// let last = exact.utc_to_uts(Mjd(41_678), UtcMicros(86_399_999_999));
    /// assert_eq!(last, Ok(UtsNanos(86_399_999_999_000)));
    /// assert_eq!(exact.dtai(Mjd(41_679)), Err(Refusal::NotKnown));
    ///
    /// assert_eq!(exact.to_text(), Ok("6+5?".to_string()));
    /// let rounded = Schedule::from_text(b"6+5?")?;
    /// assert_eq!(rounded.expiry_mjd(), Ok(Mjd(41_652)));
    /// assert_eq!(rounded.dtai(Mjd(41_652)), Err(Refusal::NotKnown));
    /// assert_eq!(exact.extends(&rounded), Ok(true));
    ///
    /// // 3 July 1972, in the month of the leap: there is no gap to write.
    /// let soon = Schedule::new(&leaps, Mjd(41_501));
    /// assert_eq!(soon.dtai(Mjd(41_500)), Ok(11));
    /// assert_eq!(soon.to_text(), Err(Refusal::NoGap));
    /// # Ok::<(), leap::ReadError>(())
    /// ```
    pub fn new(leaps: &[Leap], expiry: Mjd) -> Schedule {
        let mut words = BLANK;
        for (place, leap) in words.chunks_exact_mut(2).zip(leaps.iter().take(PLACES)) {
            place[0] = leap.month;
            place[1] = match leap.sign {
                Sign::Positive => 0,
                Sign::Negative => 1,
            };
        }
        words[COUNT] = u32::try_from(leaps.len()).unwrap_or(u32::MAX);
        words[EXPIRY] = u32::try_from(expiry.0).unwrap_or(u32::MAX);
        Schedule::from_words(words)
    }

    /// The schedule of `leap.h`'s 514 words, as they are.
    pub fn from_words(words: Words) -> Schedule {
        Schedule {
            words: Box::new(words),
        }
    }

    /// The 514 words of `leap.h`.
    pub fn words(&self) -> &Words {
        &self.words
    }

    /// The 514 words, lent to a call that changes them.
    pub(crate) fn words_mut(&mut self) -> &mut Words {
        &mut self.words
    }

    /// Whether the schedule is well formed.
    pub fn check(&self) -> Result<(), Refusal> {
        // A well-formed schedule knows its first day, 1 January 1972.
        self.dtai(Mjd(41_317)).map(|_| ())
    }

    /// The leaps of a well-formed schedule, earliest first.
    ///
    /// ```
    /// # use leap::{Leap, Schedule, Sign};
    /// let schedule = Schedule::from_text(b"6+6-5?")?;
    /// let leaps: Vec<Leap> = schedule.leaps()?.collect();
    /// assert_eq!(leaps, [
    ///     Leap { month: 6, sign: Sign::Positive },
    ///     Leap { month: 12, sign: Sign::Negative },
    /// ]);
    /// # Ok::<(), Box<dyn std::error::Error>>(())
    /// ```
    pub fn leaps(&self) -> Result<impl Iterator<Item = Leap> + '_, Refusal> {
        self.check()?;
        let used = self.words[COUNT] as usize;
        Ok(self.words.chunks_exact(2).take(used).map(|place| Leap {
            month: place[0],
            sign: if place[1] == 0 {
                Sign::Positive
            } else {
                Sign::Negative
            },
        }))
    }

    /// The first day that a well-formed schedule does not know.
    pub fn expiry_mjd(&self) -> Result<Mjd, Refusal> {
        self.check().map(|()| Mjd(self.words[EXPIRY].into()))
    }

    /// The schedule's text list, with the expiry rounded down to its month.
    pub fn to_text(&self) -> Result<String, Refusal> {
        let mut room = [0; TEXT_ROOM];
        let length = self.write_text(&mut room)?;
        // The list is ASCII, a character a byte.
        Ok(room[..length].iter().copied().map(char::from).collect())
    }

    /// The schedule's nybble list, with the expiry rounded down to its month.
    pub fn to_nybbles(&self) -> Result<Vec<u8>, Refusal> {
        let mut room = [0; NYBBLES_ROOM];
        let length = self.write_nybbles(&mut room)?;
        Ok(room[..length].to_vec())
    }

    /// Writes the text list to the start of `out` and gives its length. Bytes
    /// beyond it, or all where the writing is refused, stay. Refuses, in this order,
    /// with [`Refusal::NotWellFormed`], [`Refusal::NoGap`] or [`Refusal::OutputShort`].
    ///
    /// ```
    /// # use leap::{Refusal, Schedule};
    /// let schedule = Schedule::from_text(b"6+5?")?;
    /// let mut out = [b'.'; 6];
    /// assert_eq!(schedule.write_text(&mut out), Ok(4));
    /// assert_eq!(&out, b"6+5?..");
    /// let mut short = [b'.'; 3];
    /// assert_eq!(schedule.write_text(&mut short), Err(Refusal::OutputShort));
    /// assert_eq!(&short, b"...");
    /// # Ok::<(), leap::ReadError>(())
    /// ```
    pub fn write_text(&self, out: &mut [u8]) -> Result<usize, Refusal> {
        write(self, out, ffi::write_text)
    }

    /// Writes the nybble list, as [`write_text`](Schedule::write_text) the text
    /// list.
    pub fn write_nybbles(&self, out: &mut [u8]) -> Result<usize, Refusal> {
        write(self, out, ffi::write_nybbles)
    }

    /// TAI minus UTC on a day, in seconds.
    ///
    /// ```
    /// # use leap::{Mjd, Schedule};
    /// let schedule = Schedule::from_text(b"6-5?")?;
    /// assert_eq!(schedule.dtai(Mjd(41_498)), Ok(10));
    /// assert_eq!(schedule.dtai(Mjd(41_499)), Ok(9));
    /// # Ok::<(), leap::ReadError>(())
    /// ```
    pub fn dtai(&self, day: Mjd) -> Result<i32, Refusal> {
        let mut dtai = 0;
        answer(ffi::dtai(&self.words, day.0, &mut dtai))?;
        Ok(dtai)
    }

    /// The TAI of a UTC instant.
    ///
    /// ```
    /// # use leap::{Mjd, Schedule, TaiMicros, UtcMicros};
    /// let schedule = Schedule::from_text(b"6+5?")?;
    /// let tai = schedule.utc_to_tai(Mjd(41_317), UtcMicros(0));
    /// assert_eq!(tai, Ok(TaiMicros(10_000_000)));
    /// # Ok::<(), leap::ReadError>(())
    /// ```
    pub fn utc_to_tai(&self, day: Mjd, utc: UtcMicros) -> Result<TaiMicros, Refusal> {
        let mut tai = 0;
        answer(ffi::utc_to_tai(&self.words, day.0, utc.0, &mut tai))?;
        Ok(TaiMicros(tai))
    }

    /// The UTC instant with this TAI.
    ///
    /// ```
    /// # use leap::{Mjd, Schedule, TaiMicros, UtcMicros};
    /// let schedule = Schedule::from_text(b"6+5?")?;
    /// let utc = schedule.tai_to_utc(TaiMicros(10_000_000));
    /// assert_eq!(utc, Ok((Mjd(41_317), UtcMicros(0))));
    /// # Ok::<(), leap::ReadError>(())
    /// ```
    pub fn tai_to_utc(&self, tai: TaiMicros) -> Result<(Mjd, UtcMicros), Refusal> {
        let (mut mjd, mut micros) = (0, 0);
        answer(ffi::tai_to_utc(&self.words, tai.0, &mut mjd, &mut micros))?;
        Ok((Mjd(mjd), UtcMicros(micros)))
    }

    /// The UTS of a UTC instant, on the same day.
    ///
    /// ```
    /// # use leap::{Mjd, Refusal, Schedule, UtcMicros, UtsNanos};
    /// let schedule = Schedule::from_text(b"6-5?")?;
    /// let day = Mjd(41_498);
    /// let last = schedule.utc_to_uts(day, UtcMicros(86_398_000_000));
    /// assert_eq!(last, Ok(UtsNanos(86_398_999_000_000)));
    /// let deleted = schedule.utc_to_uts(day, UtcMicros(86_399_000_000));
    /// assert_eq!(deleted, Err(Refusal::NoInstant));
    /// # Ok::<(), leap::ReadError>(())
    /// ```
    pub fn utc_to_uts(&self, day: Mjd, utc: UtcMicros) -> Result<UtsNanos, Refusal> {
        let mut nanos = 0;
        answer(ffi::utc_to_uts(&self.words, day.0, utc.0, &mut nanos))?;
        Ok(UtsNanos(nanos))
    }

    /// The greatest UTC of the day whose UTS is not above this one.
    ///
    /// ```
    /// # use leap::{Mjd, Schedule, UtcMicros, UtsNanos};
    /// let schedule = Schedule::from_text(b"6+5?")?;
    /// let utc = schedule.uts_to_utc(Mjd(41_498), UtsNanos(86_399_001_000_000));
    /// assert_eq!(utc, Ok(UtcMicros(86_400_000_000)));
    /// # Ok::<(), leap::ReadError>(())
    /// ```
    pub fn uts_to_utc(&self, day: Mjd, uts: UtsNanos) -> Result<UtcMicros, Refusal> {
        let mut micros = 0;
        answer(ffi::uts_to_utc(&self.words, day.0, uts.0, &mut micros))?;
        Ok(UtcMicros(micros))
    }
}

/// Shows the text list, and the expiry where that is another than the list's; or all
/// words where there is no list.
impl fmt::Debug for Schedule {
    fn fmt(&self, f: &mut fmt::Formatter<'_>) -> fmt::Result {
        match self.to_text() {
            Ok(list) if Schedule::from_text(list.as_bytes()).as_ref() == Ok(self) => {
                write!(f, "Schedule({list})")
            }
            Ok(list) => write!(f, "Schedule({list} and MJD {})", self.words[EXPIRY]),
            Err(_) => write!(f, "Schedule({:?})", self.words),
        }
    }
}

/// The number that a call returned, as a result.
pub(crate) fn answer(number: u8) -> Result<(), Refusal> {
    match number {
        0 => Ok(()),
        _ => {
            Err(Refusal::from_number(number)
                .expect("the archive refuses with 1 to 11, 16, 17 or 20"))
        }
    }
}

fn read(list: &[u8], reader: fn(&[u8], &mut Words, &mut u64) -> u8) -> Result<Schedule, ReadError> {
    let mut words = BLANK;
    let mut place = 0;
    match answer(reader(list, &mut words, &mut place)) {
        Ok(()) => Ok(Schedule::from_words(words)),
        Err(refusal) => Err(ReadError { refusal, place }),
    }
}

fn write(
    schedule: &Schedule,
    out: &mut [u8],
    writer: fn(&Words, &mut [u8], &mut u64) -> u8,
) -> Result<usize, Refusal> {
    let mut written = 0;
    answer(writer(&schedule.words, out, &mut written))?;
    // Never more than the slice's own length.
    Ok(written as usize)
}
