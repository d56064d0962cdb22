//! The tables of times.

use crate::erfa;
use crate::measure::{median, Timed};
use crate::questions::Question;

/// A column with the time of a row as a multiple of another's.
pub struct Ratio {
    pub header: &'static str,
    /// The other's time, by what the row times.
    pub to: fn(&[Timed], &str) -> Option<f64>,
}

/// The time of ERFA's function for a question.
pub fn erfa_time(timed: &[Timed], what: &str) -> Option<f64> {
    let question = Question::ALL.into_iter().find(|q| q.name() == what)?;
    let (what, program) = erfa::rival(question);
    median(timed, what, program)
}

/// The rows that are timed, and below those of the same kind the missing ones.
pub fn print(title: &str, timed: &[Timed], ratios: &[Ratio], missing: &[(&str, &str)]) {
    println!();
    println!("== {title}");
    let headers: String = ratios.iter().map(|r| format!("{:>12}", r.header)).collect();
    println!(
        "{:<14}{:<24}{:>9}{:>20}{headers}",
        "", "", "median", "middle half"
    );
    let mut before = "";
    for (at, row) in timed.iter().enumerate() {
        let what = if row.what == before { "" } else { row.what };
        before = row.what;
        println!("{what:<14}{}", line(row, timed, ratios));
        let last = timed.get(at + 1).is_none_or(|next| next.what != row.what);
        for (_, program) in missing.iter().filter(|m| last && m.0 == row.what) {
            println!("{:<14}{program:<24}  not installed", "");
        }
    }
}

fn line(row: &Timed, timed: &[Timed], ratios: &[Ratio]) -> String {
    let spread = row.spread;
    let half = format!("{} .. {}", short(spread.low), short(spread.high));
    let mut line = format!("{:<24}{:>9}{half:>20}", row.program, short(spread.median));
    for ratio in ratios {
        let times = (ratio.to)(timed, row.what).map(|other| spread.median / other);
        let cell = times.map_or("-".to_string(), short);
        line.push_str(&format!("{cell:>12}"));
    }
    line
}

/// A number with three digits at least.
pub fn short(x: f64) -> String {
    let places = match x {
        x if x < 0.1 => 4,
        x if x < 1.0 => 3,
        x if x < 10.0 => 2,
        _ => 1,
    };
    format!("{x:.places$}")
}
