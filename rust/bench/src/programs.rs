//! The proved archive, asked by single calls and by calls for many questions,
//! and the second program.

use leap::ffi::{self, Words};
use second::{Prepared, Raw};

use crate::questions::Program;

pub const SINGLE: &str = "archive, single";
pub const MANY: &str = "archive, many";
pub const SECOND: &str = "second program";

/// A call of the C interface for each instant.
pub struct Single<'a>(pub &'a Words);

impl Program for Single<'_> {
    fn name(&self) -> &'static str {
        SINGLE
    }

    fn dtai(&self, mjd: &[u64], numbers: &mut [u8], dtai: &mut [i32]) {
        for ((&mjd, number), dtai) in mjd.iter().zip(numbers).zip(dtai) {
            *number = ffi::dtai(self.0, mjd, dtai);
        }
    }

    fn utc_to_tai(&self, mjd: &[u64], micros: &[u64], numbers: &mut [u8], tai: &mut [u64]) {
        for (((&mjd, &micros), number), tai) in mjd.iter().zip(micros).zip(numbers).zip(tai) {
            *number = ffi::utc_to_tai(self.0, mjd, micros, tai);
        }
    }

    fn tai_to_utc(&self, tai: &[u64], numbers: &mut [u8], mjd: &mut [u64], micros: &mut [u64]) {
        for (((&tai, number), mjd), micros) in tai.iter().zip(numbers).zip(mjd).zip(micros) {
            *number = ffi::tai_to_utc(self.0, tai, mjd, micros);
        }
    }

    fn utc_to_uts(&self, mjd: &[u64], micros: &[u64], numbers: &mut [u8], nanos: &mut [u64]) {
        for (((&mjd, &micros), number), nanos) in mjd.iter().zip(micros).zip(numbers).zip(nanos) {
            *number = ffi::utc_to_uts(self.0, mjd, micros, nanos);
        }
    }

    fn uts_to_utc(&self, mjd: &[u64], nanos: &[u64], numbers: &mut [u8], micros: &mut [u64]) {
        for (((&mjd, &nanos), number), micros) in mjd.iter().zip(nanos).zip(numbers).zip(micros) {
            *number = ffi::uts_to_utc(self.0, mjd, nanos, micros);
        }
    }
}

/// One call of the C interface for all instants. It must answer all of them.
pub struct Many<'a>(pub &'a Words);

impl Program for Many<'_> {
    fn name(&self) -> &'static str {
        MANY
    }

    fn dtai(&self, mjd: &[u64], numbers: &mut [u8], dtai: &mut [i32]) {
        let answered = ffi::dtai_many(self.0, mjd, numbers, dtai);
        assert_eq!(answered, mjd.len() as u64);
    }

    fn utc_to_tai(&self, mjd: &[u64], micros: &[u64], numbers: &mut [u8], tai: &mut [u64]) {
        let answered = ffi::utc_to_tai_many(self.0, mjd, micros, numbers, tai);
        assert_eq!(answered, mjd.len() as u64);
    }

    fn tai_to_utc(&self, tai: &[u64], numbers: &mut [u8], mjd: &mut [u64], micros: &mut [u64]) {
        let answered = ffi::tai_to_utc_many(self.0, tai, numbers, mjd, micros);
        assert_eq!(answered, tai.len() as u64);
    }

    fn utc_to_uts(&self, mjd: &[u64], micros: &[u64], numbers: &mut [u8], nanos: &mut [u64]) {
        let answered = ffi::utc_to_uts_many(self.0, mjd, micros, numbers, nanos);
        assert_eq!(answered, mjd.len() as u64);
    }

    fn uts_to_utc(&self, mjd: &[u64], nanos: &[u64], numbers: &mut [u8], micros: &mut [u64]) {
        let answered = ffi::uts_to_utc_many(self.0, mjd, nanos, numbers, micros);
        assert_eq!(answered, mjd.len() as u64);
    }
}

/// The second program, with the list prepared once.
pub struct Second(pub Prepared);

impl Second {
    pub fn new(words: &Words) -> Option<Second> {
        Prepared::new(&Raw::from_words(words)).map(Second)
    }
}

impl Program for Second {
    fn name(&self) -> &'static str {
        SECOND
    }

    fn dtai(&self, mjd: &[u64], numbers: &mut [u8], dtai: &mut [i32]) {
        for ((&mjd, number), dtai) in mjd.iter().zip(numbers).zip(dtai) {
            (*number, *dtai) = self.0.dtai(mjd);
        }
    }

    fn utc_to_tai(&self, mjd: &[u64], micros: &[u64], numbers: &mut [u8], tai: &mut [u64]) {
        for (((&mjd, &micros), number), tai) in mjd.iter().zip(micros).zip(numbers).zip(tai) {
            (*number, *tai) = self.0.utc_to_tai(mjd, micros);
        }
    }

    fn tai_to_utc(&self, tai: &[u64], numbers: &mut [u8], mjd: &mut [u64], micros: &mut [u64]) {
        for (((&tai, number), mjd), micros) in tai.iter().zip(numbers).zip(mjd).zip(micros) {
            (*number, *mjd, *micros) = self.0.tai_to_utc(tai);
        }
    }

    fn utc_to_uts(&self, mjd: &[u64], micros: &[u64], numbers: &mut [u8], nanos: &mut [u64]) {
        for (((&mjd, &micros), number), nanos) in mjd.iter().zip(micros).zip(numbers).zip(nanos) {
            (*number, *nanos) = self.0.utc_to_uts(mjd, micros);
        }
    }

    fn uts_to_utc(&self, mjd: &[u64], nanos: &[u64], numbers: &mut [u8], micros: &mut [u64]) {
        for (((&mjd, &nanos), number), micros) in mjd.iter().zip(nanos).zip(numbers).zip(micros) {
            (*number, *micros) = self.0.uts_to_utc(mjd, nanos);
        }
    }
}
