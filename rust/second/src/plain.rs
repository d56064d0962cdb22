//! The figures in the lines of the proved program `figures`, to compare the two
//! outputs: a name, then numbers. A reading is number, place, leaps, expiry MJD.

use crate::ask::to_hex;
use crate::calendar::month_start;
use crate::{
    dtai, read_nybbles, read_text, tai_to_utc, utc_to_tai, utc_to_uts, uts_to_utc, write_nybbles,
    Raw, Reading,
};

const A: &[u8] = b"6+6+12+12+12+12+12+12+12+18+12+12+24+30+24+12+18+12+12+5?";
const B: &[u8] = b"\x00\x11\x11\x11\x12\x11\x34\x31\x21\x12\x22\x9D\x56\x52\x87\xFA";

fn reading(name: &str, r: &Reading) -> String {
    format!(
        "{name} {} {} {} {}",
        r.number, r.place, r.schedule.count, r.schedule.expiry_mjd
    )
}

fn last_leap(name: &str, raw: &Raw) -> String {
    let month = raw.words[..raw.count as usize].iter().map(|w| w.0).max();
    format!("{name} {}", month.unwrap_or(0))
}

fn written(name: &str, raw: &Raw) -> String {
    let mut out = [0; 64];
    let (number, count) = write_nybbles(raw, &mut out);
    format!("{name} {number} {}", to_hex(&out[..count as usize]))
}

fn values(name: &str, number: u8, values: &[i128]) -> String {
    let mut line = format!("{name} {number}");
    if number == 0 {
        for value in values {
            line += &format!(" {value}");
        }
    }
    line
}

fn offset(name: &str, raw: &Raw, mjd: u64) -> String {
    let (number, seconds) = dtai(raw, mjd);
    values(name, number, &[seconds.into()])
}

fn atomic(name: &str, raw: &Raw, mjd: u64, micros: u64) -> String {
    let (number, tai) = utc_to_tai(raw, mjd, micros);
    values(name, number, &[tai.into()])
}

/// Smoothed time, and what it goes back to.
fn smooth(name: &str, raw: &Raw, mjd: u64, micros: u64) -> String {
    let (number, nanos) = utc_to_uts(raw, mjd, micros);
    let (_, back) = uts_to_utc(raw, mjd, nanos);
    values(name, number, &[nanos.into(), back.into()])
}

pub fn lines() -> Vec<String> {
    let mut all = Vec::new();
    let texts: [(&str, &[u8]); 6] = [
        ("P1", b"5?"),
        ("P2", b""),
        ("P3", b"06+5?"),
        ("P4", b"1000?"),
        ("P5", b"999?"),
        ("P6", b"5?\n"),
    ];
    all.extend(
        texts
            .iter()
            .map(|(name, list)| reading(name, &read_text(list))),
    );
    let nybbles: [(&str, &[u8]); 3] = [("P7", b"\xF4"), ("P8", b"\x0F"), ("P9", b"\x9D")];
    all.extend(
        nybbles
            .iter()
            .map(|(name, list)| reading(name, &read_nybbles(list))),
    );
    let plus = read_text(b"6+5?").schedule;
    let minus = read_text(b"6-5?").schedule;
    for (name, raw, second) in [
        ("P10", &plus, 86_400),
        ("P11", &plus, 85_401),
        ("P11", &plus, 85_402),
        ("P12", &minus, 86_398),
        ("P12", &minus, 86_399),
    ] {
        all.push(smooth(name, raw, 41_498, second * 1_000_000));
    }
    all.extend([0, 2400, 540, 599].map(|m| format!("month {m} {}", month_start(m))));
    let a = read_text(A);
    all.push(reading("A", &a));
    all.push(last_leap("A last", &a.schedule));
    all.push(offset("A DTAI", &a.schedule, month_start(270)));
    all.push(written("A nybbles", &a.schedule));
    let b = read_nybbles(B);
    all.push(reading("B", &b));
    all.push(last_leap("B last", &b.schedule));
    all.extend([57_754, 57_753, 59_548].map(|mjd| offset("B DTAI", &b.schedule, mjd)));
    all.push(smooth("B UTS", &b.schedule, 59_548, 85_399_000_000));
    all.push(atomic("B TAI", &b.schedule, 59_548, 85_399_000_000));
    all.push(reading("82", &read_nybbles(b"\x82\xF4")));
    all.push(reading("85", &read_nybbles(b"\x85\xF4")));
    all.push(reading("N", &read_text(b"6-5?")));
    all.push(written("999", &read_text(b"999?").schedule));
    for (name, raw, seconds) in [
        (
            "inserted",
            &plus,
            [85_400, 85_401, 85_402, 85_403, 85_404, 86_399, 86_400],
        ),
        (
            "deleted",
            &minus,
            [85_398, 85_399, 85_400, 85_401, 85_402, 85_403, 86_398],
        ),
    ] {
        all.extend(seconds.map(|second| smooth(name, raw, 41_498, second * 1_000_000)));
        all.extend([0, 1].map(|second| smooth(name, raw, 41_499, second * 1_000_000)));
    }
    all.push(atomic("1972 TAI", &plus, 41_317, 0));
    let (number, mjd, micros) = tai_to_utc(&plus, 10_000_000);
    all.push(values("1972 UTC", number, &[mjd.into(), micros.into()]));
    all.push(atomic("leap TAI", &plus, 41_498, 86_400_000_000));
    all.push(atomic("next TAI", &plus, 41_499, 0));
    let expiring = |expiry_mjd| Raw {
        expiry_mjd,
        ..Raw::blank()
    };
    for mjd in [41_317, 41_318, 41_347, 41_348, 71_752, 71_753] {
        all.push(written(&format!("until {mjd}"), &expiring(mjd)));
    }
    let within = expiring(41_360);
    all.push(smooth("within UTS", &within, 41_359, 86_399_999_999));
    all.push(smooth("within UTS", &within, 41_359, 86_400_000_000));
    all.push(smooth("within UTS", &within, 41_360, 0));
    all.push(atomic("within TAI", &within, 41_359, 86_399_999_999));
    all.push(atomic("within TAI", &within, 41_359, 86_400_000_000));
    for tai in [3_715_209_999_999, 3_715_210_000_000] {
        let (number, mjd, micros) = tai_to_utc(&within, tai);
        all.push(values("within UTC", number, &[mjd.into(), micros.into()]));
    }
    all
}
