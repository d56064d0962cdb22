//! The nybble list. Reading first expands every nybble to memo 000's bytecodes
//! and then runs those; writing follows 01's words for its one spelling.

use crate::calendar::LAST_MONTH;
use crate::refusal::*;
use crate::schedule::{Laying, Mark, Raw, Reading, Schedule, MAX_GAP, MAX_LEAPS};
use crate::text::write_by;

/// A bytecode WMNPGGGG and the place of its first nybble.
#[derive(Clone, Copy, Debug, PartialEq, Eq)]
pub struct Bytecode {
    pub place: u64,
    pub code: u8,
}

/// Memo 000's expansion. A lone last nybble of 8 or more gets GGGG = 0100.
pub fn expand(list: &[u8]) -> Vec<Bytecode> {
    let mut codes = Vec::new();
    let mut nybbles = (0u64..).zip(list.iter().flat_map(|b| [b >> 4, b & 15]));
    while let Some((place, nybble)) = nybbles.next() {
        let code = if nybble & 8 == 0 {
            0x10 + nybble
        } else {
            let low = nybbles.next().map_or(0b0100, |(_, g)| g);
            nybble << 4 | low
        };
        codes.push(Bytecode { place, code });
    }
    codes
}

/// The months that a bytecode counts.
pub fn months_of(code: u8) -> u32 {
    let unit = if code & 0b0100_0000 != 0 { 1 } else { 6 };
    unit * (u32::from(code & 0b1111) + 1)
}

/// The schedule of a nybble list, or the refusal's number and place.
pub fn parse(list: &[u8]) -> Result<Schedule, (u8, u64)> {
    let codes = expand(list);
    let mut laying = Laying::default();
    let mut gap = 0;
    for (at, &Bytecode { place, code }) in codes.iter().enumerate() {
        gap += months_of(code);
        if gap > MAX_GAP {
            return Err((BAD_GAP, place));
        }
        if laying.months() + gap > LAST_MONTH {
            return Err((PAST_LAST_MONTH, place));
        }
        let leap = match code >> 4 & 0b11 {
            0b00 => continue,
            0b01 => 1,
            0b10 => -1,
            _ => {
                return match codes.get(at + 1) {
                    Some(next) => Err((AFTER_THE_END, next.place)),
                    None => Ok(laying.expire(gap)),
                }
            }
        };
        if laying.leaps() == MAX_LEAPS {
            return Err((TOO_MANY_LEAPS, place));
        }
        laying.leap(gap, leap);
        gap = 0;
    }
    Err((ENDS_EARLY, 2 * list.len() as u64))
}

pub fn read_nybbles(list: &[u8]) -> Reading {
    match parse(list) {
        Ok(schedule) => Reading::accepted(&schedule),
        Err((number, place)) => Reading::refused(number, place),
    }
}

/// A code as the writer spells it.
enum Spelt {
    Single(u8),
    Wide(u8, u8),
}

const NO_LEAP: u8 = 0b00;

fn np(mark: Mark) -> u8 {
    match mark {
        Mark::Positive => 0b01,
        Mark::Negative => 0b10,
        Mark::Expiry => 0b11,
    }
}

/// 1 to 16 sixes of months.
fn in_sixes(sixes: u32, np: u8) -> Spelt {
    Spelt::Wide(0b1000 | np, (sixes - 1) as u8)
}

/// 1 to 16 months.
fn in_months(months: u32, np: u8) -> Spelt {
    Spelt::Wide(0b1100 | np, (months - 1) as u8)
}

/// 0x8F while more than 16 sixes remain; the 1 to 16 left over.
fn long_part(mut sixes: u32, codes: &mut Vec<Spelt>) -> u32 {
    while sixes > 16 {
        codes.push(in_sixes(16, NO_LEAP));
        sixes -= 16;
    }
    sixes
}

fn spell_gap(gap: u32, mark: Mark, codes: &mut Vec<Spelt>) {
    if gap % 6 == 0 {
        let rest = long_part(gap / 6, codes);
        if mark == Mark::Positive && rest <= 8 {
            codes.push(Spelt::Single((rest - 1) as u8));
        } else {
            codes.push(in_sixes(rest, np(mark)));
        }
    } else if gap <= 16 {
        codes.push(in_months(gap, np(mark)));
    } else {
        let years = gap / 12;
        let rest = long_part(2 * years, codes);
        codes.push(in_sixes(rest, NO_LEAP));
        codes.push(in_months(gap - 12 * years, np(mark)));
    }
}

/// A schedule's nybble list, or 17.
pub fn spell(schedule: &Schedule) -> Result<Vec<u8>, u8> {
    let mut codes = Vec::new();
    for (gap, mark) in schedule.gaps()? {
        spell_gap(gap, mark, &mut codes);
    }
    let singles = codes.iter().filter(|c| matches!(c, Spelt::Single(_)));
    if singles.count() % 2 == 1 {
        let last = codes.iter_mut().rev().find_map(|c| match *c {
            Spelt::Single(v) => Some((c, v)),
            Spelt::Wide(..) => None,
        });
        if let Some((code, v)) = last {
            *code = Spelt::Wide(9, v);
        }
    }
    let mut nybbles = Vec::new();
    for code in codes {
        match code {
            Spelt::Single(v) => nybbles.push(v),
            Spelt::Wide(flags, g) => nybbles.extend([flags, g]),
        }
    }
    Ok(nybbles.chunks_exact(2).map(|p| p[0] << 4 | p[1]).collect())
}

pub fn write_nybbles(raw: &Raw, out: &mut [u8]) -> (u8, u64) {
    write_by(spell, raw, out)
}

#[cfg(test)]
mod tests {
    use super::*;

    #[test]
    fn bytecodes_of_memo_000() {
        let codes = |list: &[u8]| expand(list).iter().map(|c| c.code).collect::<Vec<_>>();
        assert_eq!(codes(&[0x9d, 0x56]), [0x9d, 0x15, 0x16]);
        assert_eq!(codes(&[0x19, 0xd5]), [0x11, 0x9d, 0x15]);
        assert_eq!(codes(&[0x87, 0xfa]), [0x87, 0xfa]);
        assert_eq!(codes(&[0x0f]), [0x10, 0xf4]);
        assert_eq!(codes(&[]), []);
        assert_eq!(months_of(0x9d), 84);
        assert_eq!(months_of(0x82), 18);
        assert_eq!(months_of(0x85), 36);
        assert_eq!(months_of(0xf2), 3);
        assert_eq!(months_of(0x11), 12);
    }
}
