//! Many questions under one schedule, which is then checked only once. Each is
//! answered as it would be alone.

use crate::ffi::{self, Words};
use crate::refusal::Refusal;
use crate::schedule::{answer, Mjd, Schedule, TaiMicros, UtcMicros, UtsNanos};

impl Schedule {
    /// [`dtai`](Schedule::dtai) of each day.
    ///
    /// ```
    /// # use leap::{Mjd, Refusal, Schedule};
    /// let schedule = Schedule::from_text(b"6+5?")?;
    /// let days = [Mjd(41_498), Mjd(41_499), Mjd(41_652)];
    /// assert_eq!(schedule.dtai_many(&days), [Ok(10), Ok(11), Err(Refusal::NotKnown)]);
    /// # Ok::<(), leap::ReadError>(())
    /// ```
    pub fn dtai_many(&self, days: &[Mjd]) -> Vec<Result<i32, Refusal>> {
        let mjd: Vec<u64> = days.iter().map(|day| day.0).collect();
        let mut numbers = vec![0; mjd.len()];
        let mut dtai = vec![0; mjd.len()];
        ffi::dtai_many(self.words(), &mjd, &mut numbers, &mut dtai);
        results(numbers, dtai.into_iter())
    }

    /// [`utc_to_tai`](Schedule::utc_to_tai) of each instant.
    ///
    /// ```
    /// # use leap::{Mjd, Refusal, Schedule, TaiMicros, UtcMicros};
    /// let schedule = Schedule::from_text(b"6-5?")?;
    /// let day = Mjd(41_498);
    /// // The last second of 30 June is deleted.
    /// let instants = [(day, UtcMicros(0)), (day, UtcMicros(86_399_000_000))];
    /// assert_eq!(schedule.utc_to_tai_many(&instants), [
    ///     Ok(TaiMicros(15_638_410_000_000)),
    ///     Err(Refusal::NoInstant),
    /// ]);
    /// # Ok::<(), leap::ReadError>(())
    /// ```
    pub fn utc_to_tai_many(
        &self,
        instants: &[(Mjd, UtcMicros)],
    ) -> Vec<Result<TaiMicros, Refusal>> {
        let asked = instants.iter().map(|(day, utc)| (day.0, utc.0));
        of_days(self, asked, ffi::utc_to_tai_many, TaiMicros)
    }

    /// [`tai_to_utc`](Schedule::tai_to_utc) of each TAI.
    ///
    /// ```
    /// # use leap::{Mjd, Refusal, Schedule, TaiMicros, UtcMicros};
    /// let schedule = Schedule::from_text(b"6+5?")?;
    /// let tai = [TaiMicros(9_999_999), TaiMicros(10_000_000)];
    /// assert_eq!(schedule.tai_to_utc_many(&tai), [
    ///     Err(Refusal::Before1972),
    ///     Ok((Mjd(41_317), UtcMicros(0))),
    /// ]);
    /// # Ok::<(), leap::ReadError>(())
    /// ```
    pub fn tai_to_utc_many(&self, tai: &[TaiMicros]) -> Vec<Result<(Mjd, UtcMicros), Refusal>> {
        let tai: Vec<u64> = tai.iter().map(|tai| tai.0).collect();
        let mut numbers = vec![0; tai.len()];
        let mut mjd = vec![0; tai.len()];
        let mut micros = vec![0; tai.len()];
        ffi::tai_to_utc_many(self.words(), &tai, &mut numbers, &mut mjd, &mut micros);
        let instants = mjd.into_iter().zip(micros);
        results(numbers, instants.map(|(m, t)| (Mjd(m), UtcMicros(t))))
    }

    /// [`utc_to_uts`](Schedule::utc_to_uts) of each instant.
    ///
    /// ```
    /// # use leap::{Mjd, Schedule, UtcMicros, UtsNanos};
    /// let schedule = Schedule::from_text(b"6+5?")?;
    /// let day = Mjd(41_498);
    /// let instants = [(day, UtcMicros(85_401_000_000)), (day, UtcMicros(86_400_000_000))];
    /// assert_eq!(schedule.utc_to_uts_many(&instants), [
    ///     Ok(UtsNanos(85_401_000_000_000)),
    ///     Ok(UtsNanos(86_399_001_000_000)),
    /// ]);
    /// # Ok::<(), leap::ReadError>(())
    /// ```
    pub fn utc_to_uts_many(&self, instants: &[(Mjd, UtcMicros)]) -> Vec<Result<UtsNanos, Refusal>> {
        let asked = instants.iter().map(|(day, utc)| (day.0, utc.0));
        of_days(self, asked, ffi::utc_to_uts_many, UtsNanos)
    }

    /// [`uts_to_utc`](Schedule::uts_to_utc) of each smoothed instant.
    ///
    /// ```
    /// # use leap::{Mjd, Schedule, UtcMicros, UtsNanos};
    /// let schedule = Schedule::from_text(b"6+5?")?;
    /// let day = Mjd(41_498);
    /// let smoothed = [(day, UtsNanos(999)), (day, UtsNanos(86_399_001_000_000))];
    /// assert_eq!(schedule.uts_to_utc_many(&smoothed), [
    ///     Ok(UtcMicros(0)),
    ///     Ok(UtcMicros(86_400_000_000)),
    /// ]);
    /// # Ok::<(), leap::ReadError>(())
    /// ```
    pub fn uts_to_utc_many(&self, smoothed: &[(Mjd, UtsNanos)]) -> Vec<Result<UtcMicros, Refusal>> {
        let asked = smoothed.iter().map(|(day, uts)| (day.0, uts.0));
        of_days(self, asked, ffi::uts_to_utc_many, UtcMicros)
    }
}

/// A call that asks about times of days.
type OfDays = fn(&Words, &[u64], &[u64], &mut [u8], &mut [u64]) -> u64;

fn of_days<T>(
    schedule: &Schedule,
    asked: impl Iterator<Item = (u64, u64)>,
    ask: OfDays,
    unit: fn(u64) -> T,
) -> Vec<Result<T, Refusal>> {
    let (mjd, times): (Vec<u64>, Vec<u64>) = asked.unzip();
    let mut numbers = vec![0; mjd.len()];
    let mut values = vec![0; mjd.len()];
    ask(schedule.words(), &mjd, &times, &mut numbers, &mut values);
    results(numbers, values.into_iter().map(unit))
}

/// Each number with its value, as a result.
fn results<T>(numbers: Vec<u8>, values: impl Iterator<Item = T>) -> Vec<Result<T, Refusal>> {
    let each = numbers.into_iter().zip(values);
    each.map(|(number, value)| answer(number).map(|()| value))
        .collect()
}
