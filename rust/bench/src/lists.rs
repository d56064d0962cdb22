//! The lists under which the questions are asked, and those that are compared.

use leap::ffi::{self, Words};

/// List B of 01, as text.
const B: &str =
    "6+6+12+12+12+12+12+12+12+18+12+12+24+30+24+12+18+12+12+18+18+18+84+36+42+36+18+59?";

pub struct List {
    pub name: &'static str,
    pub text: Vec<u8>,
    pub nybbles: Vec<u8>,
    pub words: Words,
}

impl List {
    fn read(name: &'static str, text: String) -> Result<List, String> {
        let (mut words, mut place) = ([0; 514], 0);
        let number = ffi::read_text(text.as_bytes(), &mut words, &mut place);
        if number != 0 {
            return Err(format!("{name} is refused with {number} at byte {place}"));
        }
        let (mut nybbles, mut written) = (vec![0; 390], 0);
        let number = ffi::write_nybbles(&words, &mut nybbles, &mut written);
        if number != 0 {
            return Err(format!("{name} is not written: {number}"));
        }
        nybbles.truncate(written as usize);
        Ok(List {
            name,
            text: text.into_bytes(),
            nybbles,
            words,
        })
    }

    /// The months in which a leap takes effect.
    pub fn months(&self) -> impl Iterator<Item = u32> + '_ {
        let count = self.words[512] as usize;
        self.words.chunks_exact(2).take(count).map(|leap| leap[0])
    }

    pub fn expiry_mjd(&self) -> u64 {
        self.words[513].into()
    }

    /// The list with an expiry so many days later, but in the same month, which its
    /// text and nybbles round down.
    fn later(self, name: &'static str, days: u32) -> List {
        let mut words = self.words;
        words[513] += days;
        List {
            name,
            words,
            ..self
        }
    }
}

/// As many leaps as a list may have: one every nine months, of which every
/// eighth is negative. It expires in month 2394 of the 2400 allowed.
fn longest() -> String {
    let mut text = String::new();
    for leap in 1..=256 {
        text.push_str(if leap % 8 == 0 { "9-" } else { "9+" });
    }
    text + "90?"
}

/// As many leaps in the least time: one every month, of which every eighth is
/// negative. It expires a month after the last.
fn densest() -> String {
    let mut text = String::new();
    for leap in 1..=256 {
        text.push_str(if leap % 8 == 0 { "1-" } else { "1+" });
    }
    text + "1?"
}

/// Two text lists, and their name in a table.
pub struct Two {
    pub name: &'static str,
    pub first: String,
    pub second: String,
}

/// The two lists with the longest comparison: 256 leaps each and none shared, all
/// but each one's first in months of four digits.
pub fn largest() -> Two {
    Two {
        name: "256 leaps",
        first: format!("999+{}890?", "2+".repeat(255)),
        second: format!("998+{}892?", "2+".repeat(255)),
    }
}

/// List B, twice.
pub fn b_twice() -> Two {
    Two {
        name: "list B",
        first: B.to_string(),
        second: B.to_string(),
    }
}

/// The lists that are timed, and after them those that are compared only.
pub fn all() -> Result<([List; 3], [List; 2]), String> {
    let b = || List::read("list B", B.to_string());
    let longest = || List::read("256 leaps, nine months apart", longest());
    Ok((
        [
            b()?,
            longest()?,
            List::read("256 leaps, a month apart", densest())?,
        ],
        [
            b()?.later("list B to the 28th", 27),
            longest()?.later("256 leaps to a 2nd", 1),
        ],
    ))
}
