//! Smaller lists than one that fails: with a part taken out, two gaps made one,
//! or a byte or nybble replaced by a simpler one.

use crate::call::Format;

/// A text list's bytes, or a nybble list's nybbles.
fn units(format: Format, list: &[u8]) -> Vec<u8> {
    match format {
        Format::Text => list.to_vec(),
        Format::Nybbles => list.iter().flat_map(|b| [b >> 4, b & 15]).collect(),
    }
}

/// The bytes of these units; an odd number of nybbles makes none.
fn packed(format: Format, units: &[u8]) -> Option<Vec<u8>> {
    match format {
        Format::Text => Some(units.to_vec()),
        Format::Nybbles if units.len() % 2 == 1 => None,
        Format::Nybbles => Some(units.chunks(2).map(|p| p[0] << 4 | p[1]).collect()),
    }
}

/// How simple a unit is: one is replaced only by one of a lower rank.
fn rank(format: Format, unit: u8) -> usize {
    match format {
        Format::Nybbles => unit.into(),
        Format::Text => b"1234567890+-?"
            .iter()
            .position(|&b| b == unit)
            .unwrap_or(13 + usize::from(unit)),
    }
}

/// All lists with a run of units taken out, the longest runs first.
fn shorter(units: &[u8]) -> Vec<Vec<u8>> {
    let mut lists = Vec::new();
    let mut size = units.len();
    while size > 0 {
        let step = (size / 2).max(1);
        for at in (0..=units.len() - size).step_by(step) {
            lists.push([&units[..at], &units[at + size..]].concat());
        }
        size = if size == 3 { 2 } else { size / 2 };
    }
    lists
}

/// All lists with one unit simpler.
fn simpler(format: Format, units: &[u8]) -> Vec<Vec<u8>> {
    let mut lists = Vec::new();
    for (at, &unit) in units.iter().enumerate() {
        let candidates: Vec<u8> = match format {
            Format::Text => b"129+-?a".to_vec(),
            Format::Nybbles => (0..unit).collect(),
        };
        for other in candidates {
            if rank(format, other) < rank(format, unit) {
                let mut list = units.to_vec();
                list[at] = other;
                lists.push(list);
            }
        }
    }
    lists
}

/// A gap in a list: its units, its months, and the flags that end it.
struct Gap {
    start: usize,
    end: usize,
    months: u32,
    np: u8,
}

/// The runs of one to three digits.
fn text_gaps(units: &[u8]) -> Vec<Gap> {
    let mut gaps: Vec<Gap> = Vec::new();
    for (at, &byte) in units.iter().enumerate() {
        if !byte.is_ascii_digit() {
            continue;
        }
        let digit = u32::from(byte - b'0');
        match gaps.last_mut() {
            Some(gap) if gap.end == at && gap.end - gap.start < 3 => {
                gap.end += 1;
                gap.months = 10 * gap.months + digit;
            }
            _ => gaps.push(Gap {
                start: at,
                end: at + 1,
                months: digit,
                np: 0,
            }),
        }
    }
    gaps
}

/// The codes.
fn nybble_gaps(units: &[u8]) -> Vec<Gap> {
    let mut gaps = Vec::new();
    let mut start = 0;
    while let Some(&first) = units.get(start) {
        let wide = first >= 8 && start + 1 < units.len();
        let count = u32::from(if wide { units[start + 1] } else { first & 7 }) + 1;
        let end = start + 1 + usize::from(wide);
        gaps.push(Gap {
            start,
            end,
            months: if first >= 12 { count } else { 6 * count },
            np: if first >= 8 { first & 3 } else { 1 },
        });
        start = end;
    }
    gaps
}

/// One gap in place of two, with the second one's mark.
fn joined(format: Format, one: &Gap, next: &Gap) -> Option<Vec<u8>> {
    let months = one.months + next.months;
    let wide = |flags: u8, count: u32| Some(vec![8 | flags | next.np, (count - 1) as u8]);
    match format {
        Format::Text if months <= 999 => Some(months.to_string().into_bytes()),
        Format::Nybbles if months <= 16 => wide(4, months),
        Format::Nybbles if months.is_multiple_of(6) && months <= 96 => wide(0, months / 6),
        _ => None,
    }
}

/// All lists with two neighbouring gaps made one, if that is shorter.
fn merged(format: Format, units: &[u8]) -> Vec<Vec<u8>> {
    let (gaps, apart) = match format {
        Format::Text => (text_gaps(units), 1),
        Format::Nybbles => (nybble_gaps(units), 0),
    };
    let pairs = gaps.windows(2).filter(|p| p[1].start - p[0].end == apart);
    pairs
        .filter_map(|pair| {
            let gap = joined(format, &pair[0], &pair[1])?;
            Some([&units[..pair[0].start], &gap, &units[pair[1].end..]].concat())
        })
        .filter(|list| list.len() < units.len())
        .collect()
}

/// Two lists with the same run of bytes taken out of each, the longest first.
fn both_shorter(one: &[u8], other: &[u8]) -> Vec<(Vec<u8>, Vec<u8>)> {
    let common = one.len().min(other.len());
    let cuts = |list: &[u8]| {
        let rest = &list[common..];
        let cut = shorter(&list[..common]).into_iter();
        cut.map(move |start| [&start[..], rest].concat())
            .collect::<Vec<_>>()
    };
    cuts(one).into_iter().zip(cuts(other)).collect()
}

/// Two text lists, of which both or one are smaller.
pub fn two_lists(one: &[u8], other: &[u8]) -> Vec<(Vec<u8>, Vec<u8>)> {
    let mut all = both_shorter(one, other);
    let ones = lists(Format::Text, one).into_iter();
    all.extend(ones.map(|list| (list, other.to_vec())));
    let others = lists(Format::Text, other).into_iter();
    all.extend(others.map(|list| (one.to_vec(), list)));
    all
}

/// Runs of a length to take out of so many things, the longest first.
fn runs(length: usize) -> impl Iterator<Item = std::ops::Range<usize>> {
    let sizes = std::iter::successors(Some(length), |size| Some(size / 2));
    let sizes = sizes.take_while(|&size| size > 0);
    sizes.flat_map(move |size| {
        let starts = (0..=length - size).step_by((size / 2).max(1));
        starts.map(move |at| at..at + size)
    })
}

/// Traces with lines or bytes taken out, or a byte simpler. They are made one by
/// one, since a trace may be long.
pub fn traces(trace: &[u8]) -> impl Iterator<Item = Vec<u8>> + '_ {
    let ends: Vec<usize> = [0]
        .into_iter()
        .chain(
            (0..trace.len())
                .filter(|&at| trace[at] == b'\n')
                .map(|at| at + 1),
        )
        .collect();
    let cut = |from: usize, to: usize| [&trace[..from], &trace[to..]].concat();
    let lines = runs(ends.len() - 1).map(move |run| cut(ends[run.start], ends[run.end]));
    let bytes = runs(trace.len()).map(move |run| cut(run.start, run.end));
    let simpler = (0..trace.len()).flat_map(move |at| {
        let simpler = b"129+-?a".iter().copied();
        let lower = move |&byte: &u8| rank(Format::Text, byte) < rank(Format::Text, trace[at]);
        simpler.filter(lower).map(move |byte| {
            let mut other = trace.to_vec();
            other[at] = byte;
            other
        })
    });
    lines.chain(bytes).chain(simpler)
}

/// Lists that are shorter or, at the same length, simpler; the boldest first.
pub fn lists(format: Format, list: &[u8]) -> Vec<Vec<u8>> {
    let units = units(format, list);
    [
        shorter(&units),
        merged(format, &units),
        simpler(format, &units),
    ]
    .concat()
    .iter()
    .filter_map(|units| packed(format, units))
    .collect()
}
