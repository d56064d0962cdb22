//! The figures of 01, the example of request 7/14, the edges of request 10/14 and
//! the tables of document 002, run and compared.
//!
//! One figure a line:
//!
//! ```text
//! NAME: INPUT -> RESULT ok
//! NAME: INPUT -> RESULT WRONG expected EXPECTED
//! ```
//!
//! INPUT is a word and its values, one space between. A list stands as its
//! text with bytes outside ASCII's printable ones escaped, in double quotes
//! where it is read from text; nybbles stand in hex. LIST may also be a schedule
//! that is handed in, LEAPS@EXPIRY, where LEAPS is `none` or months with signs,
//! `6+,12-`, and EXPIRY an MJD. RESULT depends on the word:
//!
//! ```text
//! read "TEXT"              NUMBER PLACE LEAPS EXPIRY
//! read-nybbles HEX         the same
//! summary LIST             leaps, last leap month, expiry MJD, DTAI after
//! to-text HEX              NUMBER and the text of a nybble list
//! write-text LIST          NUMBER and the text
//! write-nybbles LIST       NUMBER and the hex
//! well-formed LIST         `yes` or `no`
//! extends LIST LIST        NUMBER and `yes` or `no`
//! month-start N            MJD
//! dtai LIST MJD            NUMBER DTAI
//! tai LIST MJD MICROS      NUMBER TAI
//! utc LIST TAI             NUMBER MJD MICROS
//! uts LIST MJD MICROS      NUMBER NANOS
//! unsmooth LIST MJD NANOS  NUMBER MICROS
//! compare LIST LIST        NUMBER and the lines, `; ` between them
//! ```
//!
//! The expected values stand here as the papers give them. Table rows of 002
//! are kept as its clock readings; only their conversion to counts is computed.

use std::fmt;

use crate::ask::{from_hex, to_hex};
use crate::calendar::month_start;
use crate::{
    compare_text, dtai, extends, read_nybbles, read_text, tai_to_utc, utc_to_tai, utc_to_uts,
    uts_to_utc, well_formed, write_nybbles, write_text, Raw, Reading,
};

pub struct Figure {
    pub name: String,
    pub input: String,
    pub result: String,
    pub expected: String,
}

impl Figure {
    pub fn is_right(&self) -> bool {
        self.result == self.expected
    }
}

impl fmt::Display for Figure {
    fn fmt(&self, f: &mut fmt::Formatter<'_>) -> fmt::Result {
        write!(f, "{}: {} -> {} ", self.name, self.input, self.result)?;
        if self.is_right() {
            write!(f, "ok")
        } else {
            write!(f, "WRONG expected {}", self.expected)
        }
    }
}

/// List A of 01 (document 000).
pub const A: &str = "6+6+12+12+12+12+12+12+12+18+12+12+24+30+24+12+18+12+12+5?";
/// List B of 01 (document 000), in nybbles and written out by hand.
pub const B_HEX: &str = concat!("00111111", "12113431", "2112229d", "565287fa");
pub const B: &str =
    "6+6+12+12+12+12+12+12+12+18+12+12+24+30+24+12+18+12+12+18+18+18+84+36+42+36+18+59?";

/// Document 002, inserted leap second: day 0 is the day that it ends.
pub const INSERTED: [(u64, &str, &str); 9] = [
    (0, "23:43:20.000", "23:43:20.000"),
    (0, "23:43:21.000", "23:43:21.000"),
    (0, "23:43:22.000", "23:43:21.999"),
    (0, "23:43:23.000", "23:43:22.998"),
    (0, "23:43:24.000", "23:43:23.997"),
    (0, "23:59:59.000", "23:59:58.002"),
    (0, "23:59:60.000", "23:59:59.001"),
    (1, "00:00:00.000", "00:00:00.000"),
    (1, "00:00:01.000", "00:00:01.000"),
];

/// Document 002, deleted leap second.
pub const DELETED: [(u64, &str, &str); 9] = [
    (0, "23:43:18.000", "23:43:18.000"),
    (0, "23:43:19.000", "23:43:19.000"),
    (0, "23:43:20.000", "23:43:20.001"),
    (0, "23:43:21.000", "23:43:21.002"),
    (0, "23:43:22.000", "23:43:22.003"),
    (0, "23:43:23.000", "23:43:23.004"),
    (0, "23:59:58.000", "23:59:58.999"),
    (1, "00:00:00.000", "00:00:00.000"),
    (1, "00:00:01.000", "00:00:01.000"),
];

/// Milliseconds of a clock reading hh:mm:ss.mmm.
fn clock(reading: &str) -> u64 {
    let parts: Vec<u64> = reading
        .split([':', '.'])
        .map(|p| p.parse().unwrap_or(u64::MAX / 4_000_000))
        .collect();
    ((parts[0] * 60 + parts[1]) * 60 + parts[2]) * 1_000 + parts[3]
}

fn reading(r: &Reading) -> String {
    let s = &r.schedule;
    let leaps: Vec<String> = s.words[..s.count as usize]
        .iter()
        .map(|&(month, negative)| format!("{month}{}", if negative == 0 { '+' } else { '-' }))
        .collect();
    let leaps = if leaps.is_empty() {
        "none".to_string()
    } else {
        leaps.join(",")
    };
    format!("{} {} {leaps} {}", r.number, r.place, s.expiry_mjd)
}

/// The schedule of a text list, or of LEAPS@EXPIRY.
fn list(text: &str) -> Raw {
    let Some((leaps, expiry)) = text.split_once('@') else {
        return read_text(text.as_bytes()).schedule;
    };
    let number = |digits: &str| digits.parse().unwrap_or(u32::MAX);
    let mut raw = Raw::blank();
    for leap in leaps.split(',').filter(|leap| *leap != "none") {
        let (month, sign) = leap.split_at(leap.len() - 1);
        raw.words[raw.count as usize] = (number(month), u32::from(sign == "-"));
        raw.count += 1;
    }
    raw.expiry_mjd = number(expiry);
    raw
}

fn yes_or_no(yes: bool) -> String {
    if yes { "yes" } else { "no" }.to_string()
}

fn bytes(hex: &str) -> Vec<u8> {
    from_hex(hex.as_bytes()).unwrap_or_default()
}

#[derive(Default)]
struct Page {
    figures: Vec<Figure>,
}

impl Page {
    fn put(&mut self, name: &str, input: String, result: String, expected: &str) {
        self.figures.push(Figure {
            name: name.to_string(),
            input,
            result,
            expected: expected.to_string(),
        });
    }

    fn read(&mut self, name: &str, text: &str, expected: &str) {
        let input = format!("read \"{}\"", text.escape_default());
        self.put(name, input, reading(&read_text(text.as_bytes())), expected);
    }

    fn read_nybbles(&mut self, name: &str, hex: &str, expected: &str) {
        let result = reading(&read_nybbles(&bytes(hex)));
        self.put(name, format!("read-nybbles {hex}"), result, expected);
    }

    fn summary(&mut self, name: &str, text: &str, expected: &str) {
        let s = list(text);
        let last = s.words[..s.count as usize].last().map_or(0, |w| w.0);
        let result = format!(
            "{} {last} {} {}",
            s.count,
            s.expiry_mjd,
            dtai(&s, month_start(last)).1
        );
        self.put(name, format!("summary {text}"), result, expected);
    }

    fn text_of(&mut self, name: &str, input: String, raw: &Raw, expected: &str) {
        let mut out = [0; 2048];
        let (number, count) = write_text(raw, &mut out);
        let text = String::from_utf8_lossy(&out[..count as usize]).into_owned();
        self.put(name, input, format!("{number} {text}"), expected);
    }

    fn nybbles_to_text(&mut self, name: &str, hex: &str, expected: &str) {
        let raw = read_nybbles(&bytes(hex)).schedule;
        self.text_of(name, format!("to-text {hex}"), &raw, expected);
    }

    fn write_text(&mut self, name: &str, text: &str, expected: &str) {
        self.text_of(name, format!("write-text {text}"), &list(text), expected);
    }

    fn write_nybbles(&mut self, name: &str, text: &str, expected: &str) {
        let mut out = [0; 2048];
        let (number, count) = write_nybbles(&list(text), &mut out);
        let hex = to_hex(&out[..count as usize]);
        let input = format!("write-nybbles {text}");
        self.put(name, input, format!("{number} {hex}"), expected);
    }

    fn well_formed(&mut self, name: &str, text: &str, expected: &str) {
        let result = yes_or_no(well_formed(&list(text)));
        self.put(name, format!("well-formed {text}"), result, expected);
    }

    fn extends(&mut self, name: &str, longer: &str, shorter: &str, expected: &str) {
        let (number, yes) = extends(&list(longer), &list(shorter));
        let input = format!("extends {longer} {shorter}");
        let result = format!("{number} {}", yes_or_no(yes));
        self.put(name, input, result, expected);
    }

    fn month_start(&mut self, name: &str, number: u32, expected: &str) {
        let input = format!("month-start {number}");
        self.put(name, input, month_start(number).to_string(), expected);
    }

    fn dtai(&mut self, name: &str, text: &str, mjd: u64, expected: &str) {
        let (number, value) = dtai(&list(text), mjd);
        let input = format!("dtai {text} {mjd}");
        self.put(name, input, format!("{number} {value}"), expected);
    }

    fn tai(&mut self, name: &str, text: &str, mjd: u64, micros: u64, expected: &str) {
        let (number, value) = utc_to_tai(&list(text), mjd, micros);
        let input = format!("tai {text} {mjd} {micros}");
        self.put(name, input, format!("{number} {value}"), expected);
    }

    fn utc(&mut self, name: &str, text: &str, tai: u64, expected: &str) {
        let (number, mjd, micros) = tai_to_utc(&list(text), tai);
        let input = format!("utc {text} {tai}");
        self.put(name, input, format!("{number} {mjd} {micros}"), expected);
    }

    fn uts(&mut self, name: &str, text: &str, mjd: u64, micros: u64, expected: &str) {
        let (number, value) = utc_to_uts(&list(text), mjd, micros);
        let input = format!("uts {text} {mjd} {micros}");
        self.put(name, input, format!("{number} {value}"), expected);
    }

    fn unsmooth(&mut self, name: &str, text: &str, mjd: u64, nanos: u64, expected: &str) {
        let (number, value) = uts_to_utc(&list(text), mjd, nanos);
        let input = format!("unsmooth {text} {mjd} {nanos}");
        self.put(name, input, format!("{number} {value}"), expected);
    }

    fn compare(&mut self, name: &str, first: &str, second: &str, expected: &str) {
        let mut out = [0; 8192];
        let (number, count) = compare_text(first.as_bytes(), second.as_bytes(), &mut out);
        let text = String::from_utf8_lossy(&out[..count as usize]).into_owned();
        let lines: Vec<&str> = text.split_terminator('\n').collect();
        let input = format!("compare {first} {second}");
        let result = format!("{number} {}", lines.join("; "));
        self.put(name, input, result, expected);
    }

    fn table(&mut self, name: &str, text: &str, rows: &[(u64, &str, &str)]) {
        for &(later, utc, uts) in rows {
            let mjd = 41_498 + later;
            let (micros, nanos) = (clock(utc) * 1_000, clock(uts) * 1_000_000);
            let row = format!("{name} {utc} {uts}");
            self.uts(&row, text, mjd, micros, &format!("0 {nanos}"));
            let back = format!("{row} back");
            self.unsmooth(&back, text, mjd, nanos, &format!("0 {micros}"));
        }
    }
}

/// 02, request 10/14.
fn expiry_to_the_day(p: &mut Page) {
    // Month 0 starts on 41317 and month 1 on 41348; month 999 starts on 71723 and
    // has 30 days. Month 2400 starts on 114366, 402 months after month 1998.
    let far = "999+,1998+";
    for (expiry, is) in [
        ("none@41317", "no"),
        ("none@41318", "yes"),
        ("none@41347", "yes"),
        ("none@41348", "yes"),
        ("none@71752", "yes"),
        ("none@71753", "no"),
        (&format!("{far}@114366"), "yes"),
        (&format!("{far}@114367"), "no"),
        // Month 6 starts on 41499, and 999 months after it month 1005, October
        // 2055, 183 days after month 999. It has 31 days.
        ("6+@41499", "no"),
        ("6+@41500", "yes"),
        ("6+@71936", "yes"),
        ("6+@71937", "no"),
        // A month number is a day before 1972.
        ("6+@11", "no"),
        ("none@2400", "no"),
    ] {
        p.well_formed(&format!("10/14 {expiry}"), expiry, is);
    }

    // The expiry is 13 February 1972. The day before it, 42 days on from 41317, is
    // known whole: its last TAI is 86,400,000,000 x 43 - 1 + 10,000,000.
    let within = "none@41360";
    let (last, over) = (86_399_999_999, 86_400_000_000);
    p.dtai("10/14 DTAI on Z", within, 41_359, "0 10");
    p.dtai("10/14 DTAI after Z", within, 41_360, "10 0");
    p.tai("10/14 last TAI", within, 41_359, last, "0 3715209999999");
    p.tai("10/14 no such TAI", within, 41_359, over, "9 0");
    p.tai("10/14 TAI after Z", within, 41_360, 0, "10 0");
    p.uts("10/14 last UTS", within, 41_359, last, "0 86399999999000");
    p.uts("10/14 no such UTS", within, 41_359, over, "9 0");
    p.uts("10/14 UTS after Z", within, 41_360, 0, "10 0");
    let back = "0 41359 86399999999";
    p.utc("10/14 last TAI back", within, 3_715_209_999_999, back);
    p.utc("10/14 end of Z", within, 3_715_210_000_000, "10 0 0");
    let nanos = 86_399_999_999_999;
    let back = "0 86399999999";
    p.unsmooth("10/14 last UTS back", within, 41_359, nanos, back);
    p.unsmooth("10/14 UTS back after Z", within, 41_360, 0, "10 0");

    // Writers round down to the month, and refuse a gap of 0.
    for (schedule, text, hex) in [
        ("none@41318", "17 ", "17 "),
        ("none@41347", "17 ", "17 "),
        ("none@41348", "0 1?", "0 f0"),
        ("none@71752", "0 999?", "0 8f8f8f8f8f8f8f8f8f8f85f2"),
        ("6+@41500", "17 ", "17 "),
        // 28 December 1972
        ("6+@41679", "0 6+5?", "0 90f4"),
    ] {
        p.write_text(&format!("10/14 {schedule} in text"), schedule, text);
        p.write_nybbles(&format!("10/14 {schedule} in nybbles"), schedule, hex);
    }

    // Two expiries in one month are two, and a list knows of the leap, or of none, in
    // a month whose first day lies before its expiry.
    for (longer, shorter, is) in [
        ("none@41361", "none@41360", "0 yes"),
        ("none@41360", "none@41361", "0 no"),
        ("6+@41679", "6+5?", "0 yes"),
        ("6+5?", "6+@41679", "0 no"),
        ("6+@41500", "none@41499", "0 yes"),
        ("6+@41500", "none@41500", "0 no"),
        ("none@41500", "6+@41500", "0 no"),
        ("none@41317", "none@41360", "11 no"),
    ] {
        let name = format!("10/14 {longer} extends {shorter}");
        p.extends(&name, longer, shorter, is);
    }
}

/// Every figure, in the papers' order.
pub fn figures() -> Vec<Figure> {
    let mut p = Page::default();
    let plus = "6+5?";
    let minus = "6-5?";

    // 01, "Worked by hand", the table to be proved. From 10/14 on an expiry is its
    // month's first day. Month 5 is June 1972, 31 + 29 + 31 + 30 + 31 = 152 days on
    // from 41317; month 11 is December, 366 - 31 = 335 days on. Month 999 is April
    // 2055: 2000-01-01 is MJD 51544, 55 years with 14 leap days bring 2055-01-01 to
    // 71633, and 31 + 28 + 31 days more are 71723.
    p.read("P1", "5?", "0 0 none 41469");
    p.read("P2", "", "1 0 none 0");
    p.read("P3", "06+5?", "3 0 none 0");
    p.read("P4", "1000?", "3 3 none 0");
    p.read("P5", "999?", "0 0 none 71723");
    p.read("P6", "5?\n", "6 2 none 0");
    p.read_nybbles("P7", "f4", "0 0 none 41469");
    p.read_nybbles("P8", "0f", "0 0 6+ 41652");
    p.read_nybbles("P9", "9d", "1 2 none 0");
    p.uts("P10", plus, 41_498, 86_400_000_000, "0 86399001000000");
    p.uts("P11a", plus, 41_498, 85_401_000_000, "0 85401000000000");
    p.uts("P11b", plus, 41_498, 85_402_000_000, "0 85401999000000");
    p.uts("P12a", minus, 41_498, 86_398_000_000, "0 86398999000000");
    p.uts("P12b", minus, 41_498, 86_399_000_000, "9 0");

    // 01, "Worked by hand", lists A and B and the gap of 999. Month 275 is December
    // 1994: 23 years from 1972 on with 6 leap days, less its 31 days, are 8370 days.
    p.summary("A", A, "19 270 49687 29");
    let a_leaps = concat!(
        "6+,12+,24+,36+,48+,60+,72+,84+,96+,114+,126+,138+,",
        "162+,192+,216+,228+,246+,258+,270+"
    );
    p.read("A read", A, &format!("0 0 {a_leaps} 49687"));
    p.write_nybbles("A in nybbles", A, "0 00111111121134312191f4");
    p.read_nybbles(
        "A from nybbles",
        "00111111121134312191f4",
        &format!("0 0 {a_leaps} 49687"),
    );
    p.dtai("A DTAI before the last leap", A, 49_533, "0 28");
    p.dtai("A DTAI after the last leap", A, 49_534, "0 29");
    p.summary("B", B, "27 540 59549 37");
    p.nybbles_to_text("B in text", B_HEX, &format!("0 {B}"));
    p.write_nybbles("B in nybbles", B, &format!("0 {B_HEX}"));
    p.month_start("B last leap", 540, "57754");
    p.month_start("B expiry", 599, "59549");
    p.dtai("B DTAI on MJD 57754", B, 57_754, "0 37");
    p.dtai("B DTAI the day before", B, 57_753, "0 36");
    p.dtai("B DTAI on Z", B, 59_548, "0 37");
    p.uts("B UTS on Z", B, 59_548, 85_399_000_000, "10 0");
    // 86,400,000,000 x 18,231 + 85,399,000,000 + 37,000,000
    let tai = "0 1575243836000000";
    p.tai("B TAI on Z", B, 59_548, 85_399_000_000, tai);
    p.write_nybbles("gap of 999", "999?", "0 8f8f8f8f8f8f8f8f8f8f85f2");
    p.read_nybbles(
        "gap of 999 back",
        "8f8f8f8f8f8f8f8f8f8f85f2",
        "0 0 none 71723",
    );

    // 01, what the module covers: by the bytecode rule 0x82 is 18 months. Month 23
    // is December 1973, 366 + 334 days on, and month 41 June 1975, 1096 + 151.
    p.read_nybbles("0x82 is 18 months", "82f4", "0 0 none 42017");
    p.read_nybbles("0x85 is 36 months", "85f4", "0 0 none 42564");

    // 01, months and days.
    p.month_start("month 0", 0, "41317");
    p.month_start("month 2400", 2_400, "114366");
    // 2000-01-01 is MJD 51544; 25 leap days in the 100 years from then on
    // bring 2100-01-01 to 88069, and February 2100 has 28 days.
    p.month_start("February 2100", 1_537, "88100");
    p.month_start("March 2100", 1_538, "88128");
    p.well_formed("blank", "none@0", "no");
    p.dtai("DTAI from MJD 41317", "5?", 41_317, "0 10");
    p.dtai("before 1972", "5?", 41_316, "8 0");
    p.dtai(
        "DTAI below zero",
        "1-1-1-1-1-1-1-1-1-1-1-1?",
        41_652,
        "0 -1",
    );
    p.utc("TAI at the start of 1972", "5?", 10_000_000, "0 41317 0");
    p.utc("TAI before 1972", "5?", 9_999_999, "8 0 0");

    // 01, what the class gets wrong. 1972-06-30 is MJD 41498, 181 days on.
    // In the inserted second: 86,400,000,000 x 182 + 1,000,000 x 10.
    let leap_second = 86_400_000_000;
    p.tai(
        "inserted second",
        plus,
        41_498,
        leap_second,
        "0 15724810000000",
    );
    p.tai("after it", plus, 41_499, 0, "0 15724811000000");
    p.utc(
        "inserted second back",
        plus,
        15_724_810_000_000,
        "0 41498 86400000000",
    );
    p.utc(
        "just before the end of it",
        plus,
        15_724_810_999_999,
        "0 41498 86400999999",
    );
    p.utc("after it back", plus, 15_724_811_000_000, "0 41499 0");
    p.uts(
        "not yet smoothed at 23:43:20, +",
        plus,
        41_498,
        85_400_000_000,
        "0 85400000000000",
    );
    p.uts(
        "not yet smoothed at 23:43:21, +",
        plus,
        41_498,
        85_401_000_000,
        "0 85401000000000",
    );
    p.uts(
        "smoothed just after, +",
        plus,
        41_498,
        85_401_000_001,
        "0 85401000000999",
    );
    p.uts(
        "not yet smoothed at 23:43:19, -",
        minus,
        41_498,
        85_399_000_000,
        "0 85399000000000",
    );
    p.uts(
        "smoothed just after, -",
        minus,
        41_498,
        85_399_000_001,
        "0 85399000001001",
    );
    // Eleven times 96 months is 1056; the eleventh code starts at nybble 20.
    let eleven = "8f8f8f8f8f8f8f8f8f8f8ff0";
    p.read_nybbles("NP 00 codes count together", eleven, "3 20 none 0");
    p.read_nybbles("0x95 is taken", "95f4", "0 0 36+ 42564");
    // Month 5 starts on MJD 41469, so Z is 41468, 151 days on.
    p.tai(
        "Z, last TAI given",
        "5?",
        41_468,
        86_398_999_999,
        "0 13132808999999",
    );
    p.tai("Z, TAI not given", "5?", 41_468, 86_399_000_000, "10 0");
    p.utc(
        "Z, last TAI given back",
        "5?",
        13_132_808_999_999,
        "0 41468 86398999999",
    );
    p.utc("Z, TAI not given back", "5?", 13_132_809_000_000, "10 0 0");
    p.uts(
        "Z, last UTS given",
        "5?",
        41_468,
        85_398_999_999,
        "0 85398999999000",
    );
    p.uts("Z, UTS not given", "5?", 41_468, 85_399_000_000, "10 0");
    p.unsmooth(
        "Z, last UTS given back",
        "5?",
        41_468,
        85_398_999_999_999,
        "0 85398999999",
    );
    p.unsmooth(
        "Z, UTS not given back",
        "5?",
        41_468,
        85_399_000_000_000,
        "10 0",
    );
    p.dtai("Z", "5?", 41_468, "0 10");
    p.dtai("the day after Z", "5?", 41_469, "10 0");

    // 02, request 7/14, with MJDs by 10/14: months 17 and 23 are June and December
    // 1973, 366 + 151 and 366 + 334 days on.
    p.compare(
        "7/14",
        "6+6+5?",
        "6+12+5?",
        "0 12 + 0; 18 ? +; = 41834 42017; contradict",
    );

    expiry_to_the_day(&mut p);

    // Document 002's tables, there and back.
    p.table("002 inserted", plus, &INSERTED);
    p.table("002 deleted", minus, &DELETED);
    p.figures
}
