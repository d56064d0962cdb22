mod common;

use std::collections::HashSet;

use common::{first_list, leaps_of, list, month_mjd, month_of, raw, to_month, Rng};
use second::*;

fn text(t: &str) -> (u8, u64) {
    let r = read_text(t.as_bytes());
    if r.number == 0 {
        assert!(well_formed(&r.schedule));
        assert_eq!(r.place, 0);
    } else {
        assert_eq!(r.schedule, Raw::blank());
    }
    (r.number, r.place)
}

fn hex(h: &str) -> (u8, u64) {
    let bytes = second::ask::from_hex(h.as_bytes()).unwrap();
    let r = read_nybbles(&bytes);
    if r.number == 0 {
        assert!(well_formed(&r.schedule));
        assert_eq!(r.place, 0);
    } else {
        assert_eq!(r.schedule, Raw::blank());
    }
    (r.number, r.place)
}

#[test]
fn text_refusals() {
    assert_eq!(text(""), (1, 0));
    assert_eq!(text("6"), (1, 1));
    assert_eq!(text("999"), (1, 3));
    assert_eq!(text("6+"), (1, 2));
    assert_eq!(text("6+12"), (1, 4));
    assert_eq!(text("0?"), (3, 0));
    assert_eq!(text("6+0?"), (3, 2));
    assert_eq!(text("6+05?"), (3, 2));
    assert_eq!(text("1000?"), (3, 3));
    assert_eq!(text("6+1234"), (3, 5));
    assert_eq!(text("100?"), (0, 0));
    assert_eq!(text("?"), (2, 0));
    assert_eq!(text("+6?"), (2, 0));
    assert_eq!(text("6++"), (2, 2));
    assert_eq!(text("6+?"), (2, 2));
    assert_eq!(text("6 ?"), (2, 1));
    assert_eq!(text("999x"), (2, 3));
    assert_eq!(text("6+\n"), (2, 2));
    assert_eq!(text("5?\n"), (6, 2));
    assert_eq!(text("5?0"), (6, 2));
    assert_eq!(text("5??"), (6, 2));
    assert_eq!(read_text(b"5\xff").number, 2);
    assert_eq!(read_text(b"5?\x00").number, 6);
}

#[test]
fn text_limits() {
    assert_eq!(text("999+999+402?"), (0, 0));
    assert_eq!(text("999+999+403?"), (4, 11));
    assert_eq!(text("999+999+403?x"), (4, 11));
    assert_eq!(text("999+999+403"), (1, 11));
    assert_eq!(text("999+999+4030?"), (3, 11));
    assert_eq!(text("999+999+403x"), (2, 11));
    assert_eq!(text("999+999+402+1?"), (4, 13));
    assert_eq!(text("999+999+402+?"), (2, 12));
    assert_eq!(text("999+999+402+"), (1, 12));
    let full = "1+".repeat(256);
    assert_eq!(text(&format!("{full}1?")), (0, 0));
    assert_eq!(text(&format!("{full}1+")), (5, 513));
    assert_eq!(text(&format!("{full}1-1?")), (5, 513));
    assert_eq!(text(&format!("{full}1")), (1, 513));
    // Months past 2400 come before a leap too many.
    let far = "9+".repeat(256);
    assert_eq!(text(&format!("{far}96?")), (0, 0));
    assert_eq!(text(&format!("{far}96+")), (5, 514));
    assert_eq!(text(&format!("{far}97+")), (4, 514));
    assert_eq!(text(&format!("{far}97?")), (4, 514));
}

/// Every text up to six bytes over a small alphabet. What is taken is what the
/// grammar makes, and a refused text is sound up to its place.
#[test]
fn short_texts() {
    let alphabet = b"019+-?x";
    let mut made: HashSet<Vec<u8>> = HashSet::new();
    let mut open: Vec<Vec<u8>> = vec![Vec::new()];
    let gaps: Vec<String> = (1..=999).map(|g: u32| g.to_string()).collect();
    while let Some(start) = open.pop() {
        for g in gaps
            .iter()
            .filter(|g| g.bytes().all(|b| b"019".contains(&b)))
        {
            for mark in *b"+-?" {
                let mut t = start.clone();
                t.extend_from_slice(g.as_bytes());
                t.push(mark);
                if t.len() <= 6 {
                    if mark == b'?' {
                        made.insert(t);
                    } else {
                        open.push(t);
                    }
                }
            }
        }
    }
    let mut taken = 0;
    let mut all: Vec<Vec<u8>> = vec![Vec::new()];
    for _ in 0..=6 {
        let mut next = Vec::new();
        for t in &all {
            let r = read_text(t);
            assert_eq!(r.number == 0, made.contains(t), "{}", t.escape_ascii());
            let at = r.place as usize;
            match r.number {
                0 => taken += 1,
                1 => assert_eq!(at, t.len()),
                6 => assert_eq!(read_text(&t[..at]).number, 0),
                n => {
                    assert!(n == 2 || n == 3);
                    assert!(at < t.len());
                    let before = read_text(&t[..at]);
                    assert_eq!((before.number, before.place), (1, r.place));
                }
            }
            if t.len() < 6 {
                for &b in alphabet {
                    next.push([t.as_slice(), &[b]].concat());
                }
            }
        }
        all = next;
    }
    assert_eq!(taken, made.len());
    assert!(taken > 100);
}

#[test]
fn nybble_refusals() {
    assert_eq!(hex(""), (1, 0));
    assert_eq!(hex("00"), (1, 2));
    assert_eq!(hex("9d"), (1, 2));
    assert_eq!(hex("8f"), (1, 2));
    assert_eq!(hex("08"), (1, 2)); // 8 alone takes G = 4, and no expiry follows
    assert_eq!(hex("0f"), (0, 0));
    assert_eq!(hex("f400"), (6, 2));
    assert_eq!(hex("0f40"), (6, 3));
    assert_eq!(hex("0f4f"), (6, 3));
    assert_eq!(hex("f4f4"), (6, 2));
    assert_eq!(hex("b0"), (0, 0));
    let r = read_nybbles(&[0x0b]).schedule; // 6 x 5 months to the expiry
    assert_eq!(r, to_month(&[(6, 0)], 36));
    let r = read_nybbles(&[0xd4, 0xe0, 0xff]).schedule;
    assert_eq!(r, to_month(&[(5, 0), (6, 1)], 22));
}

#[test]
fn nybble_limits() {
    let tens = "8f".repeat(10); // 960 months
    assert_eq!(hex(&format!("{tens}85f2")), (0, 0));
    assert_eq!(hex(&format!("{tens}85f3")), (3, 22));
    assert_eq!(hex(&format!("{tens}85c2f0")), (3, 24));
    assert_eq!(hex(&format!("{tens}86f0")), (3, 20));
    assert_eq!(hex(&format!("{tens}7f")), (3, 20)); // 48 months more, with a leap
    assert_eq!(hex(&format!("0{tens}84f")), (0, 0)); // a lone F, 995 in all
    assert_eq!(hex(&format!("0{tens}85f")), (3, 23)); // and here 1001
}

#[test]
fn nybble_order_of_checks() {
    // 999 + 999 months, then a gap that passes 999 and 2400 at one code.
    let long = format!("{}85d2", "8f".repeat(10));
    let two = long.repeat(2);
    assert_eq!(hex(&format!("{two}{}86f0", "8f".repeat(3))), (0, 0));
    let at = two.len() as u64;
    // 402 are left: four times 96 is 384, and 18 months more just fit.
    assert_eq!(hex(&format!("{two}{}b2", "8f".repeat(4))), (0, 0));
    assert_eq!(hex(&format!("{two}{}b3", "8f".repeat(4))), (4, at + 8));
    assert_eq!(hex(&format!("{two}{}8f", "8f".repeat(4))), (4, at + 8));
    // 256 leaps of 9 months make 2304; 96 are left.
    let full = "d8".repeat(256);
    assert_eq!(hex(&format!("{full}bf")), (0, 0));
    assert_eq!(hex(&format!("{full}9f")), (5, 512));
    assert_eq!(hex(&format!("{full}8fd0")), (4, 514));
    assert_eq!(hex(&format!("{full}8f")), (1, 514));
    assert_eq!(hex(&format!("{full}0f")), (5, 512));
    assert_eq!(hex(&format!("{full}c0ae")), (5, 514));
    assert_eq!(hex(&format!("{full}c0bf")), (4, 514));
    // 3 before 5: after 256 short leaps a gap over 999 that ends in a leap.
    let short = "d0".repeat(256);
    let tens = "8f".repeat(10);
    assert_eq!(hex(&format!("{short}{tens}96")), (3, 532));
    assert_eq!(hex(&format!("{short}{tens}95")), (5, 532));
    // 3 before 4: leap at 1440, then 960 more is 2400, then 96 more.
    let high = "9f".repeat(15);
    assert_eq!(hex(&format!("{high}{tens}f0")), (4, 50));
    assert_eq!(hex(&format!("{high}{tens}8f")), (3, 50));
}

/// Every nybble list of two bytes and many of more.
#[test]
fn nybbles_read_and_rewritten() {
    let mut rng = Rng::new(3);
    let mut lists: Vec<Vec<u8>> = (0..=u16::MAX).map(|n| n.to_be_bytes().to_vec()).collect();
    lists.extend((0..=u8::MAX).map(|b| vec![b]));
    for _ in 0..30_000 {
        let length = rng.range(3, 40);
        let common = [
            0x8f, 0x8f, 0x8e, 0x86, 0xcf, 0x9f, 0xaf, 0x00, 0x11, 0x70, 0xf4, 0xb7,
        ];
        let long = rng.chance(2);
        let mut byte = || {
            if long {
                rng.pick(&common)
            } else {
                rng.next() as u8
            }
        };
        lists.push((0..length).map(|_| byte()).collect());
    }
    let mut seen = [0; 12];
    for bytes in lists {
        let r = read_nybbles(&bytes);
        seen[r.number as usize] += 1;
        let even = (r.place % 2 == 0).then(|| &bytes[..r.place as usize / 2]);
        match r.number {
            0 => {
                assert!(well_formed(&r.schedule));
                let mut out = [0; 1024];
                let (n, count) = write_nybbles(&r.schedule, &mut out);
                assert_eq!(n, 0);
                assert_eq!(read_nybbles(&out[..count as usize]), r);
            }
            1 => assert_eq!(r.place, 2 * bytes.len() as u64),
            3..=5 => {
                if let Some(before) = even {
                    let b = read_nybbles(before);
                    assert_eq!((b.number, b.place), (1, r.place));
                }
            }
            6 => {
                if let Some(before) = even {
                    assert_eq!(read_nybbles(before).number, 0);
                }
            }
            n => panic!("{n}"),
        }
        if r.number != 0 {
            assert_eq!(r.schedule, Raw::blank());
        }
    }
    for n in [0, 1, 3, 4, 6] {
        assert!(seen[n] > 0, "{n}");
    }
}

#[test]
fn writer_spellings() {
    let write = |r: &Raw| {
        let mut out = [0; 1024];
        let (n, count) = write_nybbles(r, &mut out);
        assert_eq!(n, 0);
        second::ask::to_hex(&out[..count as usize])
    };
    assert_eq!(write(&to_month(&[], 5)), "f4"); // the memo's short end isn't used
    assert_eq!(write(&to_month(&[(6, 0)], 11)), "90f4");
    assert_eq!(write(&to_month(&[(6, 0), (12, 0)], 17)), "00f4");
    assert_eq!(write(&to_month(&[(6, 1)], 11)), "a0f4");
    assert_eq!(write(&to_month(&[(48, 0)], 53)), "97f4");
    assert_eq!(write(&to_month(&[(54, 0)], 59)), "98f4");
    assert_eq!(write(&to_month(&[(96, 0)], 101)), "9ff4");
    assert_eq!(write(&to_month(&[(102, 0)], 107)), "8f90f4");
    assert_eq!(write(&to_month(&[(102, 0), (108, 0)], 113)), "8f00f4");
    assert_eq!(write(&to_month(&[(6, 0), (108, 0)], 113)), "08f0f4");
    assert_eq!(write(&to_month(&[(150, 0)], 155)), "8f98f4");
    assert_eq!(write(&to_month(&[], 16)), "ff");
    assert_eq!(write(&to_month(&[], 17)), "81f4");
    assert_eq!(write(&to_month(&[], 12)), "b1");
    assert_eq!(write(&to_month(&[], 18)), "b2");
    assert_eq!(write(&to_month(&[], 96)), "bf");
    assert_eq!(write(&to_month(&[], 97)), "8ff0");
    assert_eq!(write(&to_month(&[], 102)), "8fb0");
    assert_eq!(write(&to_month(&[], 109)), "8f81f0");
    assert_eq!(write(&to_month(&[], 192)), "8fbf");
    assert_eq!(write(&to_month(&[], 193)), "8f8ff0");
    assert_eq!(write(&to_month(&[(7, 0), (21, 1)], 22)), "d6edf0");
    // The 9 goes before the last single nybble, not the first.
    assert_eq!(
        write(&to_month(&[(6, 0), (12, 1), (18, 0), (24, 0)], 29)),
        "0a0090f4"
    );
}

type Writer = fn(&Raw, &mut [u8]) -> (u8, u64);
const WRITERS: [Writer; 2] = [write_text, write_nybbles];

/// A writer refuses a schedule with that number in every room, and changes nothing.
fn refuses(write: Writer, s: &Raw, number: u8) {
    for room in [0, 1, 2, 5, 800] {
        let mut out = vec![b'.'; room];
        assert_eq!(write(s, &mut out), (number, 0));
        assert!(out.iter().all(|&b| b == b'.'));
    }
}

#[test]
fn writers_keep_their_hands_off() {
    let mut rng = Rng::new(4);
    let mut met = [0, 0];
    for _ in 0..600 {
        let good = list(&mut rng);
        let mut bad = good.clone();
        bad.expiry_mjd += 73_050;
        let last = leaps_of(&good).last().map_or(0, |leap| leap.0);
        let no_gap = month_of(good.expiry_mjd.into()) == last;
        met[usize::from(no_gap)] += 1;
        for write in WRITERS {
            refuses(write, &bad, 11); // 11 before 7
            if no_gap {
                refuses(write, &good, 17); // and 17 too
                bad.expiry_mjd = month_mjd(last) as u32;
                refuses(write, &bad, 11); // 11 before 17
                continue;
            }
            let mut full = [0; 2048];
            let (n, count) = write(&good, &mut full);
            assert_eq!(n, 0);
            let count = count as usize;
            assert!(count > 0);
            let fill = rng.next() as u8;
            for room in [0, 1, count - 1, count, count + 1, count + 100] {
                let mut out = vec![fill; room];
                let answer = write(&good, &mut out);
                if room < count {
                    assert_eq!(answer, (7, 0));
                    assert!(out.iter().all(|&b| b == fill));
                } else {
                    assert_eq!(answer, (0, count as u64));
                    assert_eq!(out[..count], full[..count]);
                    assert!(out[count..].iter().all(|&b| b == fill));
                }
            }
        }
    }
    assert!(met.iter().all(|&n| n > 50), "{met:?}");
}

/// What a list that is written reads back as, in both formats.
fn back(s: &Raw) -> Result<Raw, u8> {
    let mut out = [0; 2048];
    let (n, count) = write_text(s, &mut out);
    let text = read_text(&out[..count as usize]);
    let (other, count) = write_nybbles(s, &mut out);
    let nybbles = read_nybbles(&out[..count as usize]);
    assert_eq!(n, other);
    if n != 0 {
        return Err(n);
    }
    assert_eq!((text.number, text.place), (0, 0));
    assert_eq!(text, nybbles);
    Ok(text.schedule)
}

#[test]
fn round_trips() {
    let mut rng = Rng::new(5);
    for _ in 0..5_000 {
        let s = first_list(&mut rng);
        assert!(well_formed(&s));
        assert_eq!(back(&s).as_ref(), Ok(&s));
    }
}

/// A list that expires within a month reads back as itself rounded down, which it
/// extends, and is refused where that leaves no gap.
#[test]
fn rounded_down() {
    let mut rng = Rng::new(15);
    let mut met = [0; 3];
    for _ in 0..5_000 {
        let s = list(&mut rng);
        let leaps = leaps_of(&s);
        let month = month_of(s.expiry_mjd.into());
        let rounded = to_month(leaps, month);
        let last = leaps.last().map_or(0, |leap| leap.0);
        let which = if month == last {
            assert_eq!(back(&s), Err(17));
            0
        } else {
            assert_eq!(back(&s).as_ref(), Ok(&rounded));
            assert_eq!(extends(&s, &rounded), (0, true));
            assert_eq!(extends(&rounded, &s), (0, rounded == s));
            1 + usize::from(rounded == s)
        };
        met[which] += 1;
    }
    assert!(met.iter().all(|&n| n > 300), "{met:?}");
}

/// Every expiry day of a list in turn.
#[test]
fn rounded_down_day_by_day() {
    // Month 6 starts on 41499, 7 on 41530, 8 on 41561, and 999 after 6 on 71906.
    for day in 41_500..=41_529 {
        assert_eq!(back(&raw(&[(6, 1)], day)), Err(17));
    }
    for day in 41_530..=41_560 {
        assert_eq!(back(&raw(&[(6, 1)], day)), Ok(raw(&[(6, 1)], 41_530)));
    }
    assert_eq!(back(&raw(&[(6, 1)], 41_561)), Ok(raw(&[(6, 1)], 41_561)));
    for day in 71_906..=71_936 {
        assert_eq!(back(&raw(&[(6, 1)], day)), Ok(raw(&[(6, 1)], 71_906)));
    }
    assert_eq!(back(&raw(&[(6, 1)], 71_937)), Err(11));
    // The last expiries: month 2399 starts on 114335, and month 2400 on 114366.
    let far = [(999, 0), (1998, 0)];
    assert_eq!(back(&raw(&far, 114_365)), Ok(raw(&far, 114_335)));
    assert_eq!(back(&raw(&far, 114_366)), Ok(raw(&far, 114_366)));
    let end = [(999, 0), (1998, 0), (2399, 0)];
    assert_eq!(back(&raw(&end, 114_336)), Err(17));
    assert_eq!(back(&raw(&end, 114_365)), Err(17));
    assert_eq!(back(&raw(&end, 114_366)), Ok(raw(&end, 114_366)));
}

/// Other spellings of a nybble list than the writer's read the same.
#[test]
fn every_spelling_is_taken() {
    let mut rng = Rng::new(6);
    let mut lone = 0;
    let mut done = 0;
    while done < 2_000 {
        let s = first_list(&mut rng);
        let mut nybbles: Vec<u8> = Vec::new();
        let mut singles: Vec<usize> = Vec::new();
        let mut at = 0;
        let marks = leaps_of(&s).iter().map(|&(m, neg)| (m, 1 + neg as u8));
        for (month, np) in marks.chain([(month_of(s.expiry_mjd.into()), 3)]) {
            let mut left = month - at;
            at = month;
            while left > 0 {
                let sixes = left >= 6 && rng.chance(2);
                let most = if sixes { left / 6 } else { left }.min(16);
                let n = if rng.chance(2) {
                    most.into()
                } else {
                    rng.range(1, most.into())
                };
                left -= n as u32 * if sixes { 6 } else { 1 };
                let g = n as u8 - 1;
                let np = if left == 0 { np } else { 0 };
                if sixes && np == 1 && g < 8 && rng.chance(2) {
                    singles.push(nybbles.len());
                    nybbles.push(g);
                } else {
                    let m = if sixes { 0 } else { 4 };
                    nybbles.extend([8 | m | np, g]);
                }
            }
        }
        if nybbles.len() % 2 == 1 {
            if nybbles[nybbles.len() - 1] == 4 && rng.chance(2) {
                nybbles.pop(); // the memo's short end
                lone += 1;
            } else {
                let at = rng.pick(&singles);
                nybbles.insert(at, 9);
            }
        }
        let bytes: Vec<u8> = nybbles.chunks(2).map(|p| p[0] << 4 | p[1]).collect();
        let r = read_nybbles(&bytes);
        assert_eq!((r.number, r.place, &r.schedule), (0, 0, &s));
        done += 1;
    }
    assert!(lone > 10, "{lone}");
}
