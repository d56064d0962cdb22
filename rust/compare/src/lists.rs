//! Lists in both spellings: valid, damaged, near a limit, and random bytes.

use leap::ffi::Words;
use second::{Mark, Raw, Schedule};

use crate::random::Random;
use crate::schedules;

fn gaps_of(words: &Words) -> Vec<(u32, Mark)> {
    let gaps = Schedule::from_raw(&Raw::from_words(words)).map(|s| s.gaps());
    gaps.and_then(Result::ok).unwrap_or_default()
}

fn sign(random: &mut Random) -> Mark {
    random.pick(&[Mark::Positive, Mark::Positive, Mark::Negative])
}

/// Gaps with their marks that come close to a limit: the 256th and 257th leap,
/// month 2400, a gap of 999, or two of these in one mark.
fn near_a_limit(random: &mut Random) -> Vec<(u32, Mark)> {
    let mut gaps = Vec::new();
    let mut months = 0;
    let leaps = random.pick(&[0, 1, 2, 3, 100, 254, 255, 256, 257, 258, 300]);
    let stop = random.pick(&[2_398, 2_399, 2_400, 2_401, 2_402, 3_000]);
    let widest = if leaps > 200 {
        random.pick(&[1, 9, 15, 16, 17])
    } else {
        999
    };
    for at in 0..leaps {
        let gap = if random.one_in(leaps) || (at + 1 == leaps && random.one_in(2)) {
            // Up to the stop at once, where a gap reaches it.
            u32::min(stop - months, 999)
        } else {
            random.from(1, widest)
        };
        months += gap;
        gaps.push((gap.max(1), sign(random)));
        if months >= stop {
            break;
        }
    }
    let last = u32::min(stop.saturating_sub(months), 1_001);
    gaps.push((last.max(1), Mark::Expiry));
    gaps
}

/// A list with one to three bytes changed, put in, taken out, or its end cut.
fn damaged(random: &mut Random, mut list: Vec<u8>, byte: impl Fn(&mut Random) -> u8) -> Vec<u8> {
    for _ in 0..random.from(1, 3) {
        if list.is_empty() {
            list.push(byte(random));
        }
        let at = random.below(list.len());
        match random.below(7) {
            0 | 1 => list[at] = byte(random),
            2 => list.insert(at, byte(random)),
            3 => {
                list.remove(at);
            }
            4 => list.truncate(at),
            5 => list.push(byte(random)),
            _ => {
                let copy = list[at];
                list.insert(at, copy);
            }
        }
    }
    list
}

pub mod text {
    use super::*;

    fn spelt(gaps: &[(u32, Mark)]) -> Vec<u8> {
        let mark = |mark| match mark {
            Mark::Positive => '+',
            Mark::Negative => '-',
            Mark::Expiry => '?',
        };
        let list: String = gaps
            .iter()
            .map(|&(g, m)| format!("{g}{}", mark(m)))
            .collect();
        list.into_bytes()
    }

    fn byte(random: &mut Random) -> u8 {
        match random.below(10) {
            0 => random.bits() as u8,
            1 => random.pick(b"/:,*.=@! \n\r\t\0\x7f\x80\xb0\xff"),
            2 => b'0',
            _ => random.pick(b"0123456789+-?"),
        }
    }

    /// The list of a schedule; empty if there is none.
    pub fn of(words: &Words) -> Vec<u8> {
        spelt(&gaps_of(words))
    }

    pub fn valid(random: &mut Random) -> Vec<u8> {
        of(&schedules::readable(random))
    }

    pub fn broken(random: &mut Random) -> Vec<u8> {
        let list = if random.one_in(3) {
            limit(random)
        } else {
            valid(random)
        };
        damaged(random, list)
    }

    /// A list with some of its bytes damaged.
    pub fn damaged(random: &mut Random, list: Vec<u8>) -> Vec<u8> {
        super::damaged(random, list, byte)
    }

    pub fn limit(random: &mut Random) -> Vec<u8> {
        spelt(&near_a_limit(random))
    }

    pub fn random(random: &mut Random) -> Vec<u8> {
        (0..random.below(24)).map(|_| byte(random)).collect()
    }
}

pub mod nybbles {
    use super::*;

    /// The two flags of a mark.
    fn np(mark: Mark) -> u8 {
        match mark {
            Mark::Positive => 1,
            Mark::Negative => 2,
            Mark::Expiry => 3,
        }
    }

    /// A gap and its mark in codes drawn at random from those that count it. A
    /// gap of 0 is spelt as one month.
    fn spell(random: &mut Random, gap: u32, mark: Mark, nybbles: &mut Vec<u8>) {
        let mut left = gap.max(1);
        loop {
            let in_sixes = left >= 6 && !random.one_in(4);
            let unit = if in_sixes { 6 } else { 1 };
            let most = u32::min(left / unit, 16);
            let count = match random.below(3) {
                0 => random.from(1, most),
                _ => most,
            };
            left -= count * unit;
            let g = (count - 1) as u8;
            let flags = if left == 0 { np(mark) } else { 0 };
            if in_sixes && flags == 1 && count <= 8 && !random.one_in(4) {
                nybbles.push(g);
            } else {
                nybbles.extend([8 | u8::from(!in_sixes) << 2 | flags, g]);
            }
            if left == 0 {
                return;
            }
        }
    }

    /// The bytes of a nybble list. An odd one drops a last 4, or gets a nybble.
    fn packed(random: &mut Random, mut nybbles: Vec<u8>) -> Vec<u8> {
        if nybbles.len() % 2 == 1 {
            if nybbles.last() == Some(&4) {
                nybbles.pop();
            } else {
                nybbles.push(random.pick(&[0, 4, 8, 15]));
            }
        }
        nybbles.chunks_exact(2).map(|p| p[0] << 4 | p[1]).collect()
    }

    fn spelt(random: &mut Random, gaps: &[(u32, Mark)]) -> Vec<u8> {
        let mut nybbles = Vec::new();
        for &(gap, mark) in gaps {
            spell(random, gap, mark, &mut nybbles);
        }
        packed(random, nybbles)
    }

    fn byte(random: &mut Random) -> u8 {
        match random.below(4) {
            0 => random.pick(&[0x00, 0x8f, 0x85, 0xf4, 0xff, 0x9d, 0xc0, 0xd0, 0xe0, 0xf0]),
            _ => random.bits() as u8,
        }
    }

    /// The writer's own spelling.
    pub fn preferred(random: &mut Random) -> Vec<u8> {
        let words = schedules::readable(random);
        let schedule = Schedule::from_raw(&Raw::from_words(&words));
        let spelt = schedule.map(|s| second::nybbles::spell(&s));
        spelt.and_then(Result::ok).unwrap_or_default()
    }

    /// Any spelling.
    pub fn valid(random: &mut Random) -> Vec<u8> {
        let gaps = gaps_of(&schedules::readable(random));
        let list = spelt(random, &gaps);
        if second::nybbles::parse(&list).is_ok() {
            list
        } else {
            preferred(random)
        }
    }

    pub fn broken(random: &mut Random) -> Vec<u8> {
        let list = match random.below(3) {
            0 => limit(random),
            1 => preferred(random),
            _ => valid(random),
        };
        damaged(random, list, byte)
    }

    pub fn limit(random: &mut Random) -> Vec<u8> {
        let gaps = near_a_limit(random);
        spelt(random, &gaps)
    }

    pub fn random(random: &mut Random) -> Vec<u8> {
        (0..random.below(16)).map(|_| byte(random)).collect()
    }
}
