//! The instants asked about: two sets that are timed, all of whose questions
//! have an answer, and one that is compared only, with every refusal in it.

use second::calendar::month_start;
use second::Prepared;

use crate::lists::List;
use crate::questions::Instants;

/// Instants in a set that is timed.
pub const COUNT: usize = 4_096;

const FIRST_DAY: u64 = 41_317;
const LONG_DAY: u64 = 86_401_000_000;

/// Xorshift with 64 bits: the same instants in every run.
struct Random(u64);

impl Random {
    fn below(&mut self, limit: u64) -> u64 {
        self.0 ^= self.0 << 13;
        self.0 ^= self.0 >> 7;
        self.0 ^= self.0 << 17;
        self.0 % limit
    }
}

impl Instants {
    fn new(name: &'static str) -> Instants {
        Instants {
            name,
            mjd: Vec::new(),
            micros: Vec::new(),
            nanos: Vec::new(),
            tai: Vec::new(),
        }
    }

    /// Adds a UTC instant in all its forms, if it has them all.
    fn add(&mut self, second: &Prepared, mjd: u64, micros: u64) {
        let (refused, nanos) = second.utc_to_uts(mjd, micros);
        if refused == 0 {
            self.mjd.push(mjd);
            self.micros.push(micros);
            self.nanos.push(nanos);
            self.tai.push(second.utc_to_tai(mjd, micros).1);
        }
    }
}

/// Uniform over all that the list knows, from 1972 on.
pub fn random(list: &List, second: &Prepared) -> Instants {
    let mut random = Random(0x1972_0101_2016_1231);
    let mut set = Instants::new("random instants");
    let days = list.expiry_mjd() - FIRST_DAY;
    while set.mjd.len() < COUNT {
        let mjd = FIRST_DAY + random.below(days);
        set.add(second, mjd, random.below(LONG_DAY));
    }
    set
}

/// The records of one evening: from 18:00:00 on, every 5.273 s, on the day that
/// the list's last leap ends.
pub fn one_day(list: &List, second: &Prepared) -> Instants {
    let mut set = Instants::new("instants of one day");
    let mjd = list.months().last().map_or(FIRST_DAY, month_start) - 1;
    for record in 0..COUNT as u64 {
        set.add(second, mjd, 64_800_000_000 + 5_273_000 * record);
    }
    set
}

/// Days and times at and around every limit, each day with each time.
pub fn refusals(list: &List, second: &Prepared) -> Instants {
    let mut set = Instants::new("instants with refusals");
    let times = times();
    for mjd in days(list) {
        for &micros in &times {
            set.mjd.push(mjd);
            set.micros.push(micros);
            let nanos = micros.saturating_mul(1_000);
            set.nanos.push(nanos.saturating_add(micros % 1_000));
            // The TAI of that time if no leap is at hand, and a second around.
            let (_, midnight) = second.utc_to_tai(mjd, 0);
            set.tai.push(midnight.wrapping_add(micros));
        }
    }
    set
}

/// Before 1972, around each leap and the expiry, and past the calendar.
fn days(list: &List) -> Vec<u64> {
    let mut days = vec![0, 1, 41_315, 41_316, 41_317, 41_318, 114_365, 114_366];
    days.extend([u64::MAX, u64::MAX - 41_317, 1 << 32, (1 << 32) + 41_400]);
    for day in list.months().map(month_start).chain([list.expiry_mjd()]) {
        days.extend(day - 2..=day + 1);
    }
    days
}

/// Microseconds of a day: around every limit, and within the last 1001 seconds.
fn times() -> Vec<u64> {
    let mut times = vec![0, 1, 9_999_999, 10_000_000, 43_200_000_000, u64::MAX];
    for second in [
        85_399, 85_400, 85_401, 86_398, 86_399, 86_400, 86_401, 86_402,
    ] {
        let micros = second * 1_000_000;
        times.extend(micros - 2..=micros + 2);
    }
    let mut random = Random(0x2027_0601);
    times.extend((0..24).map(|_| 85_398_000_000 + random.below(1_003_000_000)));
    times
}
