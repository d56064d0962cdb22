//! The five questions, the instants that are asked about, and where the answers
//! go: as slices, which is the form of the archive's calls for many questions.

#[derive(Clone, Copy, Debug, PartialEq, Eq)]
pub enum Question {
    Dtai,
    UtcToTai,
    TaiToUtc,
    UtcToUts,
    UtsToUtc,
}

use Question::{Dtai, TaiToUtc, UtcToTai, UtcToUts, UtsToUtc};

impl Question {
    pub const ALL: [Question; 5] = [Dtai, UtcToTai, TaiToUtc, UtcToUts, UtsToUtc];

    pub fn name(self) -> &'static str {
        match self {
            Dtai => "DTAI",
            UtcToTai => "UTC to TAI",
            TaiToUtc => "TAI to UTC",
            UtcToUts => "UTC to UTS",
            UtsToUtc => "UTS to UTC",
        }
    }
}

/// Instants, each in the forms that the questions take. In the sets that are
/// timed, a place means the same instant in all of them.
pub struct Instants {
    pub name: &'static str,
    pub mjd: Vec<u64>,
    pub micros: Vec<u64>,
    pub nanos: Vec<u64>,
    pub tai: Vec<u64>,
}

/// Room for the answers to one question about every instant.
#[derive(Clone, PartialEq, Eq)]
pub struct Outputs {
    pub numbers: Vec<u8>,
    pub dtai: Vec<i32>,
    /// A TAI, a UTS, the microseconds of a UTS, or the day of a TAI.
    pub values: Vec<u64>,
    /// The microseconds of a TAI.
    pub micros: Vec<u64>,
}

impl Outputs {
    /// Filled with what no program answers, so that an answer left out shows.
    pub fn untouched(length: usize) -> Outputs {
        Outputs {
            numbers: vec![99; length],
            dtai: vec![i32::MIN; length],
            values: vec![u64::MAX; length],
            micros: vec![u64::MAX; length],
        }
    }
}

/// A program that answers the questions under one list. Each call writes, for
/// every instant, 0 and the answer, or the number of the refusal and 0.
pub trait Program {
    fn name(&self) -> &'static str;
    fn dtai(&self, mjd: &[u64], numbers: &mut [u8], dtai: &mut [i32]);
    fn utc_to_tai(&self, mjd: &[u64], micros: &[u64], numbers: &mut [u8], tai: &mut [u64]);
    fn tai_to_utc(&self, tai: &[u64], numbers: &mut [u8], mjd: &mut [u64], micros: &mut [u64]);
    fn utc_to_uts(&self, mjd: &[u64], micros: &[u64], numbers: &mut [u8], nanos: &mut [u64]);
    fn uts_to_utc(&self, mjd: &[u64], nanos: &[u64], numbers: &mut [u8], micros: &mut [u64]);
}

/// One question about every instant.
pub fn ask(program: &dyn Program, question: Question, about: &Instants, out: &mut Outputs) {
    let Instants {
        mjd,
        micros,
        nanos,
        tai,
        ..
    } = about;
    let numbers = &mut out.numbers;
    match question {
        Dtai => program.dtai(mjd, numbers, &mut out.dtai),
        UtcToTai => program.utc_to_tai(mjd, micros, numbers, &mut out.values),
        TaiToUtc => program.tai_to_utc(tai, numbers, &mut out.values, &mut out.micros),
        UtcToUts => program.utc_to_uts(mjd, micros, numbers, &mut out.values),
        UtsToUtc => program.uts_to_utc(mjd, nanos, numbers, &mut out.values),
    }
}
