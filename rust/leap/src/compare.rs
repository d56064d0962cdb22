//! Two lists: where they part, which is the longer, and whether one extends the
//! other.

use crate::ffi;
use crate::refusal::Refusal;
use crate::schedule::{answer, Schedule};

/// Room for any comparison, as `leap.h` says.
const COMPARISON_ROOM: usize = 4633;

/// Compares two text lists, in lines that each end with LF.
///
/// For each month at which either list has a leap and their marks differ there
/// is a line: the month, the first list's mark and the second's. A mark is `+`,
/// `-`, `0`, or `?` in a month that starts on or after that list's expiry day. Then,
/// if the expiries differ, there is a line of `=` and both, as MJDs. The last line is
/// `same`, `extends 1` (the first extends the second), `extends 2` or `contradict`.
///
/// A list that does not read refuses with its own refusal, the first list's
/// before the second's; [`Schedule::from_text`] says at which place.
///
/// ```
/// # use leap::Refusal;
/// assert_eq!(leap::compare(b"6?", b"6+5?")?, "6 ? +\n= 41499 41652\nextends 2\n");
/// assert_eq!(leap::compare(b"11?", b"6+5?")?, "6 0 +\ncontradict\n");
/// assert_eq!(leap::compare(b"6+5?", b"6+5?")?, "same\n");
/// assert_eq!(leap::compare(b"06+5?", b"5?"), Err(Refusal::BadGap));
/// # Ok::<(), Refusal>(())
/// ```
pub fn compare(first: &[u8], second: &[u8]) -> Result<String, Refusal> {
    let mut room = [0; COMPARISON_ROOM];
    let mut written = 0;
    answer(ffi::compare_text(first, second, &mut room, &mut written))?;
    // The comparison is ASCII, a character a byte.
    let bytes = room[..written as usize].iter();
    Ok(bytes.copied().map(char::from).collect())
}

/// Of two text lists that do not contradict each other, the longer one: the
/// given slice itself, and the first if they are the same.
///
/// A list that does not read refuses with its own refusal, the first list's
/// before the second's; then lists of which neither extends the other with
/// [`Refusal::Contradiction`].
///
/// ```
/// # use leap::Refusal;
/// let (stored, offered) = (b"6+5?", b"6+6?");
/// assert_eq!(leap::longer(stored, offered), Ok(&offered[..]));
/// let contradicting = b"6-5?";
/// assert_eq!(leap::longer(stored, contradicting), Err(Refusal::Contradiction));
/// ```
pub fn longer<'a>(first: &'a [u8], second: &'a [u8]) -> Result<&'a [u8], Refusal> {
    let mut part = &first[..0];
    answer(ffi::longer_text(first, second, &mut part))?;
    Ok(part)
}

impl Schedule {
    /// Whether this schedule extends a shorter one: its leaps in months that start
    /// before that one's expiry day are all of that one's leaps, equal in month and
    /// sign, and it expires on no earlier day. It may then replace that one, since it
    /// keeps every answer. Refuses with [`Refusal::NotWellFormed`] unless both are
    /// well formed.
    ///
    /// ```
    /// # use leap::{Mjd, Refusal, Schedule};
    /// let stored = Schedule::from_text(b"6+5?")?;
    /// let with_a_leap = Schedule::from_text(b"6+5-1?")?;
    /// assert_eq!(with_a_leap.extends(&stored), Ok(true));
    /// assert_eq!(stored.extends(&stored), Ok(true));
    /// let without = Schedule::from_text(b"12?")?;
    /// assert_eq!(without.extends(&stored), Ok(false));
    /// let blank = Schedule::new(&[], Mjd(0));
    /// assert_eq!(stored.extends(&blank), Err(Refusal::NotWellFormed));
    /// # Ok::<(), leap::ReadError>(())
    /// ```
    pub fn extends(&self, shorter: &Schedule) -> Result<bool, Refusal> {
        let mut yes = 0;
        answer(ffi::extends(self.words(), shorter.words(), &mut yes))?;
        Ok(yes == 1)
    }
}
