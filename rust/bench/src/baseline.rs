//! The baseline: the questions answered by plain Rust, unproved and tuned by
//! hand, for the archive to be measured by. The list, which must be well
//! formed, is prepared once into sorted arrays, and a question is a halving
//! search in one of them. Time is counted from the start of 1972.
//!
//! Nearly every instant lies before the last second of its day and before Z,
//! so each answer tests for that first and leaves the rest to a cold function,
//! which refuses in the paper's order.

use std::hint::select_unpredictable;

use leap::ffi::Words;

use crate::questions::Program;

pub const BASELINE: &str = "baseline, many";

const FIRST_DAY: u64 = 41_317;
const FIRST_TAI: u64 = 10_000_000;
const FIRST_DTAI: i32 = 10;

const SECOND: u64 = 1_000_000;
const DAY: u64 = 86_400 * SECOND;
const SHORT_DAY: u64 = 86_399 * SECOND;
const LONG_DAY: u64 = 86_401 * SECOND;
const UTS_DAY: u64 = 1_000 * DAY;
/// The time over which a leap is smoothed.
const SMOOTHING: u64 = 1_000 * SECOND;
/// No day is smoothed before this, and every Z is known to here.
const PLAIN: u64 = SHORT_DAY - SMOOTHING;

const BEFORE_1972: u8 = 8;
const NO_INSTANT: u8 = 9;
const NOT_KNOWN: u8 = 10;

/// Stretches of one DTAI, in the order of time. ROOM is a power of two for the
/// search, and has a place to spare; unused places start after everything.
struct Baseline<const ROOM: usize> {
    /// The day on which each stretch starts.
    start_days: [u32; ROOM],
    /// The TAI at which it starts.
    start_tais: [u64; ROOM],
    /// Its DTAI in microseconds; below zero it wraps, as the sums with it do.
    offsets: [u64; ROOM],
    dtais: [i32; ROOM],
    /// The leap at its end: 1, -1, or 0 if there is none.
    endings: [i8; ROOM],
    /// Z, the last day before the expiry.
    last: u64,
    /// The day with the cut-offs: Z before the first of a month, else no day.
    cut_off: u64,
    /// How long TAI is known.
    tai_span: u64,
}

/// Days from 0000-03-01 to MJD 0: those to 1970-01-01, which is MJD 40587, less as
/// many.
const MJD_ZERO: u64 = 719_468 - 40_587;

/// The first day of a month, with month 0 as January 1972 (Hinnant's
/// `days_from_civil`).
fn month_start(month: u32) -> u64 {
    let (year, month) = (1972 + month / 12, month % 12 + 1);
    // The year starts with March, so that its last day is the leap day.
    let (year, month) = if month > 2 {
        (year, month - 3)
    } else {
        (year - 1, month + 9)
    };
    let day_of_year = (153 * month + 2) / 5;
    let days = 365 * year + year / 4 - year / 100 + year / 400 + day_of_year;
    u64::from(days) - MJD_ZERO - FIRST_DAY
}

/// Whether a day is the first of a month (by Hinnant's `civil_from_days`).
fn is_first(mjd: u64) -> bool {
    let day_of_era = (mjd + MJD_ZERO) % 146_097;
    let year_of_era =
        (day_of_era - day_of_era / 1_460 + day_of_era / 36_524 - day_of_era / 146_096) / 365;
    let day_of_year = day_of_era - (365 * year_of_era + year_of_era / 4 - year_of_era / 100);
    let month = (5 * day_of_year + 2) / 153;
    day_of_year == (153 * month + 2) / 5
}

/// The last place whose start is below an end; place 0's always is. It takes two
/// thirds of the time of `partition_point`: the halvings are unrolled, and x86
/// has a cheaper conditional move for below than for at most.
#[inline(always)]
fn search<T: Copy + PartialOrd, const ROOM: usize>(starts: &[T; ROOM], end: T) -> usize {
    let mut at = 0;
    let mut step = ROOM / 2;
    while step > 0 {
        // SAFETY: at is a sum of greater powers of two than step, up to half of
        // ROOM, which is one too; so at + step is below ROOM.
        let start = unsafe { *starts.get_unchecked(at + step) };
        at = select_unpredictable(start < end, at + step, at);
        step /= 2;
    }
    at
}

/// The baseline for a list, in the least room: list B, or any list.
pub fn prepared(words: &Words) -> Box<dyn Program> {
    if words[512] <= 30 {
        Box::new(Baseline::<32>::new(words))
    } else {
        Box::new(Baseline::<512>::new(words))
    }
}

impl<const ROOM: usize> Baseline<ROOM> {
    fn new(words: &Words) -> Baseline<ROOM> {
        let count = words[512] as usize;
        let expiry = u64::from(words[513]);
        let last = expiry - 1 - FIRST_DAY;
        let is_cut_off = is_first(expiry);
        let mut new = Baseline {
            start_days: [u32::MAX; ROOM],
            start_tais: [u64::MAX; ROOM],
            offsets: [0; ROOM],
            dtais: [0; ROOM],
            endings: [0; ROOM],
            last,
            cut_off: if is_cut_off { last } else { u64::MAX },
            tai_span: 0,
        };
        new.start_stretch(0, 0, FIRST_DTAI);
        for (at, leap) in words.chunks_exact(2).take(count).enumerate() {
            let sign = if leap[1] == 0 { 1 } else { -1 };
            new.endings[at] = sign;
            let dtai = new.dtais[at] + i32::from(sign);
            new.start_stretch(at + 1, month_start(leap[0]), dtai);
        }
        let length = if is_cut_off { SHORT_DAY } else { DAY };
        let end = (last * DAY + length).wrapping_add(new.offsets[count]);
        new.tai_span = end - FIRST_TAI;
        new
    }

    fn start_stretch(&mut self, at: usize, day: u64, dtai: i32) {
        let offset = (i64::from(dtai) * SECOND as i64) as u64;
        self.start_days[at] = day as u32;
        self.start_tais[at] = (day * DAY).wrapping_add(offset);
        self.offsets[at] = offset;
        self.dtais[at] = dtai;
    }

    /// The stretch of a day up to Z.
    #[inline(always)]
    fn stretch(&self, day: u64) -> usize {
        search(&self.start_days, day as u32 + 1)
    }

    /// The leap at the end of a day up to Z.
    fn ending(&self, day: u64) -> i8 {
        let at = self.stretch(day);
        if u64::from(self.start_days[at + 1]) == day + 1 {
            self.endings[at]
        } else {
            0
        }
    }

    /// The number with which an instant is refused, or 0; `limit` is where no
    /// day has such a time, and `cut_off` from where on a Z of unknown length is not
    /// known.
    fn refusal(&self, mjd: u64, time: u64, limit: u64, cut_off: u64) -> u8 {
        if mjd < FIRST_DAY {
            return BEFORE_1972;
        }
        if time >= limit {
            return NO_INSTANT;
        }
        let day = mjd - FIRST_DAY;
        if day > self.last || (day == self.cut_off && time >= cut_off) {
            return NOT_KNOWN;
        }
        0
    }

    /// The same for UTC, where the day's own length is looked at last.
    fn utc_refusal(&self, mjd: u64, micros: u64, cut_off: u64) -> u8 {
        match self.refusal(mjd, micros, LONG_DAY, cut_off) {
            0 if micros >= length(self.ending(mjd - FIRST_DAY)) => NO_INSTANT,
            number => number,
        }
    }
}

/// The microseconds of a day with this leap at its end.
fn length(ending: i8) -> u64 {
    match ending {
        0 => DAY,
        1 => LONG_DAY,
        _ => SHORT_DAY,
    }
}

impl<const ROOM: usize> Baseline<ROOM> {
    #[inline(always)]
    fn dtai_of(&self, mjd: u64) -> (u8, i32) {
        let day = mjd.wrapping_sub(FIRST_DAY);
        if day <= self.last {
            return (0, self.dtais[self.stretch(day)]);
        }
        (self.refusal(mjd, 0, 1, 1), 0)
    }

    #[inline(always)]
    fn tai_of(&self, mjd: u64, micros: u64) -> (u8, u64) {
        let day = mjd.wrapping_sub(FIRST_DAY);
        if day < self.last && micros < SHORT_DAY {
            return (0, self.tai_at(day, micros));
        }
        self.tai_of_rare(mjd, micros)
    }

    #[inline(always)]
    fn tai_at(&self, day: u64, micros: u64) -> u64 {
        (day * DAY + micros).wrapping_add(self.offsets[self.stretch(day)])
    }

    #[cold]
    #[inline(never)]
    fn tai_of_rare(&self, mjd: u64, micros: u64) -> (u8, u64) {
        match self.utc_refusal(mjd, micros, SHORT_DAY) {
            0 => (0, self.tai_at(mjd - FIRST_DAY, micros)),
            number => (number, 0),
        }
    }

    #[inline(always)]
    fn utc_of(&self, tai: u64) -> (u8, u64, u64) {
        if tai.wrapping_sub(FIRST_TAI) >= self.tai_span {
            let number = if tai < FIRST_TAI {
                BEFORE_1972
            } else {
                NOT_KNOWN
            };
            return (number, 0, 0);
        }
        let at = search(&self.start_tais, tai + 1);
        let plain = tai.wrapping_sub(self.offsets[at]);
        let (day, micros) = (plain / DAY, plain % DAY);
        // An inserted second belongs to the day that it ends.
        if day >= u64::from(self.start_days[at + 1]) {
            return (0, FIRST_DAY + day - 1, micros + DAY);
        }
        (0, FIRST_DAY + day, micros)
    }

    #[inline(always)]
    fn uts_of(&self, mjd: u64, micros: u64) -> (u8, u64) {
        if mjd.wrapping_sub(FIRST_DAY) <= self.last && micros < PLAIN {
            return (0, 1_000 * micros);
        }
        self.uts_of_rare(mjd, micros)
    }

    #[cold]
    #[inline(never)]
    fn uts_of_rare(&self, mjd: u64, micros: u64) -> (u8, u64) {
        let number = self.utc_refusal(mjd, micros, PLAIN);
        if number != 0 {
            return (number, 0);
        }
        let ending = self.ending(mjd - FIRST_DAY);
        let smoothed = micros.saturating_sub(length(ending) - SMOOTHING);
        let slowed = 1_000 * micros as i64 - i64::from(ending) * smoothed as i64;
        (0, slowed as u64)
    }

    #[inline(always)]
    fn micros_of(&self, mjd: u64, nanos: u64) -> (u8, u64) {
        if mjd.wrapping_sub(FIRST_DAY) <= self.last && nanos < 1_000 * PLAIN {
            return (0, nanos / 1_000);
        }
        self.micros_of_rare(mjd, nanos)
    }

    #[cold]
    #[inline(never)]
    fn micros_of_rare(&self, mjd: u64, nanos: u64) -> (u8, u64) {
        let number = self.refusal(mjd, nanos, UTS_DAY, 1_000 * PLAIN);
        if number != 0 {
            return (number, 0);
        }
        let ending = self.ending(mjd - FIRST_DAY);
        let from = length(ending) - SMOOTHING;
        if nanos < 1_000 * from {
            return (0, nanos / 1_000);
        }
        // While smoothed, a microsecond of UTC is 999 or 1001 ns of UTS.
        let slope = (1_000 - i64::from(ending)) as u64;
        (0, from + (nanos - 1_000 * from) / slope)
    }
}

impl<const ROOM: usize> Program for Baseline<ROOM> {
    fn name(&self) -> &'static str {
        BASELINE
    }

    fn dtai(&self, mjd: &[u64], numbers: &mut [u8], dtai: &mut [i32]) {
        for ((&mjd, number), dtai) in mjd.iter().zip(numbers).zip(dtai) {
            (*number, *dtai) = self.dtai_of(mjd);
        }
    }

    fn utc_to_tai(&self, mjd: &[u64], micros: &[u64], numbers: &mut [u8], tai: &mut [u64]) {
        for (((&mjd, &micros), number), tai) in mjd.iter().zip(micros).zip(numbers).zip(tai) {
            (*number, *tai) = self.tai_of(mjd, micros);
        }
    }

    fn tai_to_utc(&self, tai: &[u64], numbers: &mut [u8], mjd: &mut [u64], micros: &mut [u64]) {
        for (((&tai, number), mjd), micros) in tai.iter().zip(numbers).zip(mjd).zip(micros) {
            (*number, *mjd, *micros) = self.utc_of(tai);
        }
    }

    fn utc_to_uts(&self, mjd: &[u64], micros: &[u64], numbers: &mut [u8], nanos: &mut [u64]) {
        for (((&mjd, &micros), number), nanos) in mjd.iter().zip(micros).zip(numbers).zip(nanos) {
            (*number, *nanos) = self.uts_of(mjd, micros);
        }
    }

    fn uts_to_utc(&self, mjd: &[u64], nanos: &[u64], numbers: &mut [u8], micros: &mut [u64]) {
        for (((&mjd, &nanos), number), micros) in mjd.iter().zip(nanos).zip(numbers).zip(micros) {
            (*number, *micros) = self.micros_of(mjd, nanos);
        }
    }
}
