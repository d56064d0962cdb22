//! The targets, as far as this run has met them: list B, both sets of instants
//! by themselves, reading, two lists, and a day replayed.

use crate::baseline::BASELINE;
use crate::cases::{ARCHIVE, COMPARE_B, COMPARE_LARGEST, LONGER_B, READ_TEXT, REPLAY};
use crate::erfa;
use crate::measure::{median, Timed};
use crate::programs::{MANY, SECOND, SINGLE};
use crate::questions::Question;
use crate::tables::short;

enum Target {
    None,
    /// At most so many times the other's time.
    AtMost(f64),
    /// At least so many times faster than the other.
    Faster(f64),
}

struct Line {
    what: String,
    time: Option<f64>,
    other: &'static str,
    other_time: Option<f64>,
    target: Target,
}

/// The targets of the questions about one set of instants of list B.
pub fn print_questions(set: &str, questions: &[Timed]) {
    let single = Question::ALL.map(|q| by_erfa(questions, q, SINGLE));
    let many = Question::ALL.map(|q| by_erfa(questions, q, MANY));
    let baseline = Question::ALL.map(|q| by_baseline(questions, q));
    let title = format!("list B, {set}");
    print(&title, single.into_iter().chain(many).chain(baseline));
}

/// The target of reading list B.
pub fn print_reading(formats: &[Timed]) {
    print("list B, reading", [by_second(formats, READ_TEXT)]);
}

/// The targets of calls about two lists.
pub fn print_two(timed: &[Timed]) {
    let most = Line {
        other: "20 microseconds",
        other_time: Some(20_000.0),
        ..by_second(timed, COMPARE_LARGEST)
    };
    let others = [COMPARE_LARGEST, COMPARE_B, LONGER_B].map(|what| by_second(timed, what));
    print("two lists", [most].into_iter().chain(others));
}

/// A line of a day beside the second program, for which there is no target.
pub fn print_replay(timed: &[Timed]) {
    let line = Line {
        target: Target::None,
        ..by_second(timed, REPLAY)
    };
    print("list B, a day replayed", [line]);
}

fn print(title: &str, lines: impl IntoIterator<Item = Line>) {
    println!();
    println!("== targets: {title}, ns");
    println!(
        "{:<20}{:>9}  {:<16}{:>9}{:>15}  {:<21}  met",
        "", "time", "other", "time", "ratio", "target"
    );
    for line in lines {
        println!("{}", line.shown());
    }
}

fn by_erfa(timed: &[Timed], question: Question, program: &'static str) -> Line {
    let (rival, other) = erfa::rival(question);
    let target = match (program, question) {
        (SINGLE, Question::Dtai) => Target::None,
        (SINGLE, _) | (_, Question::Dtai) => Target::AtMost(1.0),
        (_, Question::UtcToTai | Question::UtcToUts) => Target::Faster(5.0),
        (_, Question::TaiToUtc | Question::UtsToUtc) => Target::Faster(10.0),
    };
    let form = if program == SINGLE { "single" } else { "many" };
    Line {
        what: format!("{form} {}", question.name()),
        time: median(timed, question.name(), program),
        other,
        other_time: median(timed, rival, other),
        target,
    }
}

fn by_baseline(timed: &[Timed], question: Question) -> Line {
    Line {
        what: format!("many {}", question.name()),
        time: median(timed, question.name(), MANY),
        other: BASELINE,
        other_time: median(timed, question.name(), BASELINE),
        target: Target::AtMost(2.0),
    }
}

fn by_second(timed: &[Timed], what: &str) -> Line {
    Line {
        what: what.to_string(),
        time: median(timed, what, ARCHIVE),
        other: SECOND,
        other_time: median(timed, what, SECOND),
        target: Target::AtMost(1.0),
    }
}

impl Line {
    fn shown(&self) -> String {
        let target = match self.target {
            Target::None => "none, stated only".to_string(),
            Target::AtMost(times) => format!("at most {times:.2} x"),
            Target::Faster(times) => format!("at least {times:.0} x faster"),
        };
        let time = self.time.unwrap_or(f64::NAN);
        let start = format!("{:<20}{:>9}  {:<16}", self.what, short(time), self.other);
        let Some(other) = self.other_time else {
            return format!("{start}{:>9}{:>15}  {target:<21}  -", "absent", "-");
        };
        let (ratio, met) = match self.target {
            Target::None => (format!("{} x", short(time / other)), "-"),
            Target::AtMost(times) => {
                let ratio = time / other;
                (format!("{} x", short(ratio)), word(ratio <= times))
            }
            Target::Faster(times) => {
                let ratio = other / time;
                (format!("{} x faster", short(ratio)), word(ratio >= times))
            }
        };
        format!("{start}{:>9}{ratio:>15}  {target:<21}  {met}", short(other))
    }
}

fn word(met: bool) -> &'static str {
    if met {
        "met"
    } else {
        "not met"
    }
}
