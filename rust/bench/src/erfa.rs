//! ERFA's counterparts of the first three questions, where the feature `erfa`
//! says that it is there to link with. ERFA counts in floating point and has its
//! own list, so it is timed and not compared.

use crate::measure::Case;
use crate::questions::{Instants, Question};

pub const DAT: &str = "ERFA eraDat";
pub const UTCTAI: &str = "ERFA eraUtctai";
pub const TAIUTC: &str = "ERFA eraTaiutc";

/// The function that a question is measured by. For UTS, of which ERFA knows
/// nothing, it is the one for TAI.
pub fn rival(question: Question) -> (&'static str, &'static str) {
    match question {
        Question::Dtai => (Question::Dtai.name(), DAT),
        Question::UtcToTai | Question::UtcToUts => (Question::UtcToTai.name(), UTCTAI),
        Question::TaiToUtc | Question::UtsToUtc => (Question::TaiToUtc.name(), TAIUTC),
    }
}

#[cfg(feature = "erfa")]
pub const METHOD: &str =
    "ERFA: by its own list, so beside list B only; UTS is set beside its functions for TAI.";
#[cfg(not(feature = "erfa"))]
pub const METHOD: &str = "ERFA: not installed (Debian has it as liberfa-dev), so not timed.";

/// The rows of a table that are not timed here.
pub const MISSING: &[(&str, &str)] = if cfg!(feature = "erfa") {
    &[]
} else {
    &[
        ("DTAI", DAT),
        ("UTC to TAI", UTCTAI),
        ("TAI to UTC", TAIUTC),
    ]
};

#[cfg(not(feature = "erfa"))]
pub fn cases(_: &Instants) -> Vec<Case<'static>> {
    Vec::new()
}

#[cfg(feature = "erfa")]
pub use linked::cases;

#[cfg(feature = "erfa")]
mod linked {
    use std::ffi::c_int;
    use std::hint::black_box;

    use second::calendar::{calendar, FIRST_MJD};

    use super::{Case, Instants, Question, DAT, TAIUTC, UTCTAI};

    #[link(name = "erfa")]
    extern "C" {
        fn eraDat(year: c_int, month: c_int, day: c_int, fraction: f64, dtai: *mut f64) -> c_int;
        fn eraUtctai(utc1: f64, utc2: f64, tai1: *mut f64, tai2: *mut f64) -> c_int;
        fn eraTaiutc(tai1: f64, tai2: f64, utc1: *mut f64, utc2: *mut f64) -> c_int;
    }

    const MICROS_PER_DAY: u64 = 86_400_000_000;

    /// The Julian Date of MJD 0.
    const MJD_ZERO: f64 = 2_400_000.5;

    /// A calendar date and a fraction of the day.
    type Date = (c_int, c_int, c_int, f64);
    /// A Julian Date in two parts.
    type Julian = (f64, f64);

    fn fraction(micros: u64) -> f64 {
        micros as f64 / MICROS_PER_DAY as f64
    }

    fn dates(set: &Instants) -> Vec<Date> {
        let days = &calendar().days;
        let of = |(&mjd, &micros): (&u64, &u64)| {
            let date = days[(mjd - FIRST_MJD) as usize];
            let (year, month, day) = (date.year.into(), date.month.into(), date.day.into());
            (year, month, day, fraction(micros))
        };
        set.mjd.iter().zip(&set.micros).map(of).collect()
    }

    fn utcs(set: &Instants) -> Vec<Julian> {
        let of = |(&mjd, &micros): (&u64, &u64)| (MJD_ZERO + mjd as f64, fraction(micros));
        set.mjd.iter().zip(&set.micros).map(of).collect()
    }

    fn tais(set: &Instants) -> Vec<Julian> {
        let of = |&tai: &u64| {
            let day = FIRST_MJD + tai / MICROS_PER_DAY;
            (MJD_ZERO + day as f64, fraction(tai % MICROS_PER_DAY))
        };
        set.tai.iter().map(of).collect()
    }

    /// Its input is in ERFA's form before the timing starts.
    pub fn cases(set: &Instants) -> Vec<Case<'static>> {
        let (utcs, tais) = (utcs(set), tais(set));
        vec![
            dat_case(dates(set)),
            julian_case(Question::UtcToTai, UTCTAI, eraUtctai, utcs),
            julian_case(Question::TaiToUtc, TAIUTC, eraTaiutc, tais),
        ]
    }

    fn dat_case(dates: Vec<Date>) -> Case<'static> {
        let mut out = vec![(0, 0.0); dates.len()];
        Case {
            what: Question::Dtai.name(),
            program: DAT,
            calls: dates.len(),
            round: Box::new(move || {
                for (&(year, month, day, fraction), (status, dtai)) in dates.iter().zip(&mut out) {
                    // SAFETY: the one pointer is to a number of its own.
                    *status = unsafe { eraDat(year, month, day, fraction, dtai) };
                }
                black_box(&mut out);
            }),
        }
    }

    type Convert = unsafe extern "C" fn(f64, f64, *mut f64, *mut f64) -> c_int;

    fn julian_case(
        question: Question,
        program: &'static str,
        convert: Convert,
        from: Vec<Julian>,
    ) -> Case<'static> {
        let mut out = vec![(0, 0.0, 0.0); from.len()];
        Case {
            what: question.name(),
            program,
            calls: from.len(),
            round: Box::new(move || {
                for (&(one, two), (status, to_one, to_two)) in from.iter().zip(&mut out) {
                    // SAFETY: both pointers are to numbers of their own.
                    *status = unsafe { convert(one, two, to_one, to_two) };
                }
                black_box(&mut out);
            }),
        }
    }
}
