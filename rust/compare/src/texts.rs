//! Two text lists, of every kind that 7/14 tells apart: made as such, and looked
//! at again whether they are.

use leap::ffi::Words;
use second::read_text;

use crate::call::{second, Call};
use crate::days::{month_start, LAST_MONTH};
use crate::lists::text;
use crate::pairs::{self, extends, parting};
use crate::random::Random;
use crate::schedules::{
    expiry_month, last_leap, leaps_of, on_a_first, readable, to_month, Leap, EXPIRY, MAX_GAP,
    MAX_LEAPS,
};

pub type Two = (Vec<u8>, Vec<u8>);

/// Bytes that hold any comparison, as `leap.h` says.
pub const COMPARISON_ROOM: usize = 4_633;

/// How long a comparison is, by the second program; 0 if it is refused.
pub fn compared_length(first: &[u8], second_list: &[u8]) -> usize {
    // More than any needs, whatever the header says.
    let room = 2 * COMPARISON_ROOM;
    let outcome = second(&Call::Compare(first.to_vec(), second_list.to_vec(), room));
    outcome.values[0] as usize
}

/// A kind of two lists: how they are made, and what they must be.
pub struct Kind {
    pub make: fn(&mut Random) -> Two,
    pub is: fn(&Two) -> bool,
}

/// The schedule that a text list means, if it reads.
pub fn meant(list: &[u8]) -> Option<Box<Words>> {
    let reading = read_text(list);
    (reading.number == 0).then(|| Box::new(reading.schedule.to_words()))
}

fn both_meant(two: &Two) -> Option<(Box<Words>, Box<Words>)> {
    Some((meant(&two.0)?, meant(&two.1)?))
}

/// Whether both lists read and this holds of them, one way round or the other.
fn either_way(two: &Two, holds: impl Fn(&Words, &Words) -> bool) -> bool {
    both_meant(two).is_some_and(|(one, other)| holds(&one, &other) || holds(&other, &one))
}

fn in_any_order<T>(random: &mut Random, one: T, other: T) -> (T, T) {
    if random.one_in(2) {
        (one, other)
    } else {
        (other, one)
    }
}

/// Two lists in any order. One that expires within a month is spelt as if it expired
/// on the first of it, or of the next where there would be no gap.
fn spelt(random: &mut Random, one: &Words, other: &Words) -> Two {
    let [one, other] = [one, other].map(|words| text::of(&on_a_first(words)));
    in_any_order(random, one, other)
}

/// What `make` makes in one of many trials.
fn tried<T>(random: &mut Random, make: impl Fn(&mut Random) -> Option<T>) -> T {
    loop {
        if let Some(made) = make(random) {
            return made;
        }
    }
}

pub const SAME: Kind = Kind {
    make: |random| {
        let list = text::valid(random);
        (list.clone(), list)
    },
    is: |two| two.0 == two.1 && both_meant(two).is_some(),
};

pub const LATER_EXPIRY: Kind = Kind {
    make: |random| {
        let (one, other) = tried(random, |random| {
            let one = readable(random);
            let (month, latest) = (expiry_month(&one), last_leap(&one) + MAX_GAP);
            let latest = LAST_MONTH.min(latest);
            let later = random.from(month, latest);
            let later = random.pick(&[month + 1, latest, later]);
            let other = to_month(&leaps_of(&one), later);
            (month < later && later <= latest).then_some((one, other))
        });
        spelt(random, &one, &other)
    },
    is: |two| {
        either_way(two, |one, other| {
            leaps_of(one) == leaps_of(other) && one[EXPIRY] < other[EXPIRY]
        })
    },
};

pub const LEAP_AT_EXPIRY: Kind = Kind {
    make: |random| {
        let (shorter, longer) = tried(random, |random| {
            let shorter = readable(random);
            let mut leaps = leaps_of(&shorter);
            let month = expiry_month(&shorter);
            if leaps.len() == MAX_LEAPS || month == LAST_MONTH {
                return None;
            }
            leaps.push((month, random.from(0, 1)));
            let expiry = random.from(month + 1, LAST_MONTH.min(month + MAX_GAP));
            Some((shorter, to_month(&leaps, expiry)))
        });
        spelt(random, &shorter, &longer)
    },
    is: |two| {
        either_way(two, |shorter, longer| {
            let (leaps, further) = (leaps_of(shorter), leaps_of(longer));
            let at_expiry = |leap: &Leap| month_start(leap.0) == shorter[EXPIRY];
            further
                .strip_prefix(&leaps[..])
                .is_some_and(|more| matches!(more, [leap] if at_expiry(leap)))
        })
    },
};

pub const EXTENDED: Kind = Kind {
    make: |random| {
        tried(random, |random| {
            let make = random.pick(&[pairs::extended, pairs::cut_short]);
            let (longer, shorter) = make(random);
            let (longer, shorter) = (on_a_first(&longer), on_a_first(&shorter));
            // A gap that was put in may reach a leap of the longer one.
            let extends = extends(&longer, &shorter);
            extends.then(|| spelt(random, &longer, &shorter))
        })
    },
    is: |two| either_way(two, extends),
};

/// Two lists of which the second has that leap of the first turned, moved or
/// left out.
fn parted_at(random: &mut Random, which: fn(usize) -> usize) -> Two {
    let (one, other) = tried(random, |random| {
        let one = readable(random);
        let mut leaps = leaps_of(&one);
        let at = which(leaps.len().checked_sub(1)?);
        let month = leaps[at].0;
        match random.below(4) {
            0 => leaps[at].1 ^= 1,
            1 => leaps[at].0 += 1,
            2 => leaps[at].0 -= 1,
            _ => {
                leaps.remove(at);
            }
        }
        // Both know the month at which they part.
        let end = leaps.last().map_or(0, |leap| leap.0).max(month);
        let later = random.from(end + 1, end + 60);
        let expiry = random.pick(&[expiry_month(&one), end + 1, later]);
        let other = to_month(&leaps, expiry);
        let lists = pairs::is_list(&other) && parting(&one, &other).is_some();
        lists.then_some((one, other))
    });
    spelt(random, &one, &other)
}

/// Whether both lists read, contradict, and `holds` of each one's leaps before
/// the month at which they part, and from then on.
fn parts(two: &Two, holds: fn(&[Leap], &[Leap]) -> bool) -> bool {
    both_meant(two).is_some_and(|(one, other)| {
        parting(&one, &other).is_some_and(|month| {
            [one, other].iter().all(|list| {
                let leaps = leaps_of(list);
                let (before, after) = leaps.split_at(leaps.partition_point(|l| l.0 < month));
                holds(before, after)
            })
        })
    })
}

pub const PARTED_AT_FIRST: Kind = Kind {
    make: |random| parted_at(random, |_| 0),
    is: |two| parts(two, |before, _| before.is_empty()),
};

pub const PARTED_AT_LAST: Kind = Kind {
    make: |random| parted_at(random, |last| last),
    is: |two| parts(two, |_, after| after.len() <= 1),
};

pub const CONTRADICTING: Kind = Kind {
    make: |random| {
        tried(random, |random| {
            let (one, other) = pairs::contradicting(random);
            let (one, other) = (on_a_first(&one), on_a_first(&other));
            // Rounded down, one may no longer know the month at which they part.
            parting(&one, &other).map(|_| spelt(random, &one, &other))
        })
    },
    is: |two| parts(two, |_, _| true),
};

/// 256 leaps each, in 512 different months. One in eight is mostly the longest
/// comparison: all months but each list's first have four digits, and the expiry
/// MJDs six.
pub const NONE_SHARED: Kind = Kind {
    make: |random| {
        let (one, other) = tried(random, |random| {
            let mut months: Vec<u32> = (1..LAST_MONTH).collect();
            let mut least = 1;
            if random.one_in(8) {
                months = (998..=1_509).collect();
                least = 1_950;
            }
            while months.len() > 2 * MAX_LEAPS {
                months.swap_remove(random.below(months.len()));
            }
            months.sort_unstable();
            let signs = random.pick(&[0, 1, 2]);
            let mut leaps = [Vec::new(), Vec::new()];
            for two in months.chunks(2) {
                let turn = random.below(2);
                for (at, month) in two.iter().enumerate() {
                    let sign = if signs == 2 { random.from(0, 1) } else { signs };
                    leaps[(at + turn) % 2].push((*month, sign));
                }
            }
            let [one, other] = leaps.map(|leaps| {
                let last = leaps.last().map_or(0, |leap: &Leap| leap.0);
                let latest = LAST_MONTH.min(last + MAX_GAP);
                to_month(&leaps, random.from(least.max(last + 1), latest))
            });
            (pairs::is_list(&one) && pairs::is_list(&other)).then_some((one, other))
        });
        spelt(random, &one, &other)
    },
    is: |two| {
        either_way(two, |one, other| {
            let (one, other) = (leaps_of(one), leaps_of(other));
            let shared = one.iter().any(|leap| other.iter().any(|o| o.0 == leap.0));
            (one.len(), other.len()) == (MAX_LEAPS, MAX_LEAPS) && !shared
        })
    },
};

pub const UNRELATED: Kind = Kind {
    make: |random| (text::valid(random), text::valid(random)),
    is: |two| both_meant(two).is_some(),
};

/// A text list that does not read.
fn refused(random: &mut Random) -> Vec<u8> {
    tried(random, |random| {
        let make = random.pick(&[text::broken, text::broken, text::limit, text::random]);
        let list = make(random);
        meant(&list).is_none().then_some(list)
    })
}

pub const FIRST_REFUSED: Kind = Kind {
    make: |random| (refused(random), text::valid(random)),
    is: |two| meant(&two.0).is_none() && meant(&two.1).is_some(),
};

pub const SECOND_REFUSED: Kind = Kind {
    make: |random| (text::valid(random), refused(random)),
    is: |two| meant(&two.0).is_some() && meant(&two.1).is_none(),
};

pub const BOTH_REFUSED: Kind = Kind {
    make: |random| (refused(random), refused(random)),
    is: |two| meant(&two.0).is_none() && meant(&two.1).is_none(),
};

/// A list and a damaged copy of it, which may read.
pub const DAMAGED: Kind = Kind {
    make: |random| {
        tried(random, |random| {
            let list = text::valid(random);
            let copy = text::damaged(random, list.clone());
            let two = in_any_order(random, list, copy);
            (two.0 != two.1).then_some(two)
        })
    },
    is: |two| two.0 != two.1 && (meant(&two.0).is_some() || meant(&two.1).is_some()),
};

/// The rooms for a comparison of that length: every one that is too small, just
/// enough and more, for some of the short ones and few of the others; else one,
/// about the length.
pub fn rooms(random: &mut Random, length: usize) -> Vec<usize> {
    let one_in = if length <= 64 { 20 } else { 5_000 };
    if length > 0 && random.one_in(one_in) {
        return (0..=length + 2).chain([COMPARISON_ROOM]).collect();
    }
    let near = [length, length.saturating_sub(1), length + 1];
    vec![match random.below(6) {
        0 => random.below(length + 1),
        1 => COMPARISON_ROOM,
        2 => length + random.below(40),
        _ => random.pick(&near),
    }]
}

#[cfg(test)]
mod tests {
    use super::*;

    #[test]
    fn two_lists_are_what_they_are_called() {
        let kinds = [
            SAME,
            LATER_EXPIRY,
            LEAP_AT_EXPIRY,
            EXTENDED,
            PARTED_AT_FIRST,
            PARTED_AT_LAST,
            CONTRADICTING,
            NONE_SHARED,
            UNRELATED,
            FIRST_REFUSED,
            SECOND_REFUSED,
            BOTH_REFUSED,
            DAMAGED,
        ];
        let mut random = Random::new(4);
        for _ in 0..500 {
            for (at, kind) in kinds.iter().enumerate() {
                let two = (kind.make)(&mut random);
                assert!((kind.is)(&two), "{at}: {two:?}");
            }
        }
    }

    /// By hand: what some lists are, and are not.
    #[test]
    fn kinds_are_told_apart() {
        let two = |one: &str, other: &str| (one.as_bytes().to_vec(), other.as_bytes().to_vec());
        let is = |kind: Kind, one, other| (kind.is)(&two(one, other));
        assert!(is(SAME, "6+5?", "6+5?") && !is(SAME, "6+5?", "6+6?"));
        assert!(is(LATER_EXPIRY, "6+6?", "6+5?") && is(LATER_EXPIRY, "6+5?", "6+6?"));
        assert!(!is(LATER_EXPIRY, "6+5?", "6+5-1?") && !is(LATER_EXPIRY, "6+5?", "6+5?"));
        assert!(is(LEAP_AT_EXPIRY, "6+5-1?", "6+5?") && !is(LEAP_AT_EXPIRY, "6+5?", "6+6-1?"));
        assert!(!is(LEAP_AT_EXPIRY, "6+5?", "6+5-1-1?"));
        assert!(is(EXTENDED, "6+5?", "6+6-1-1?") && !is(EXTENDED, "6+5?", "6-5?"));
        assert!(is(PARTED_AT_FIRST, "6+5+1?", "6-5+1?"));
        assert!(!is(PARTED_AT_FIRST, "6+5+1?", "6+5-1?"));
        assert!(is(PARTED_AT_LAST, "6+5+1?", "6+5-1?"));
        assert!(!is(PARTED_AT_LAST, "6+5+1?", "6-5+1?"));
        assert!(is(CONTRADICTING, "11?", "6+5?") && !is(CONTRADICTING, "6?", "6+5?"));
        assert!(!is(NONE_SHARED, "6+5?", "7+5?"));
        assert!(is(FIRST_REFUSED, "06?", "5?") && !is(FIRST_REFUSED, "5?", "06?"));
        assert!(is(SECOND_REFUSED, "5?", "06?") && !is(SECOND_REFUSED, "06?", "06?"));
        assert!(is(BOTH_REFUSED, "", "06?") && !is(BOTH_REFUSED, "", "5?"));
        assert!(is(DAMAGED, "5?", "5") && !is(DAMAGED, "5?", "5?"));
    }

    #[test]
    fn the_longest_comparison_is_made() {
        let mut random = Random::new(5);
        let longest = (0..200)
            .map(|_| (NONE_SHARED.make)(&mut random))
            .map(|two| compared_length(&two.0, &two.1))
            .max();
        assert_eq!(longest, Some(COMPARISON_ROOM));
    }
}
