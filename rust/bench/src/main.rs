//! `bench` times the proved archive beside other programs that answer the same
//! questions. Its help says what is timed, and its output how.

mod agree;
mod baseline;
mod cases;
mod day;
mod erfa;
mod instants;
mod lists;
mod measure;
mod programs;
mod questions;
mod tables;
mod targets;

use std::process::ExitCode;

use baseline::BASELINE;
use day::Day;
use instants::COUNT;
use lists::{List, Two};
use measure::{median, Timed, ROUNDS};
use programs::{Many, Second, Single, SECOND};
use questions::{Instants, Program};
use tables::Ratio;

const HELP: &str = "\
bench: times the proved archive beside other programs, and prints tables of ns a call

It takes no arguments but --help. Under list B, of 27 leaps, and under a list of
256 leaps, nine months apart, it times
- the five questions, by single calls of the C interface and by its calls for
  many questions, about instants at random and about those of one evening
- calls for many questions with 1, 10 and 100 instants, for UTC to TAI
- reading and writing both lists as text and as nybbles
- comparing the two lists with the longest comparison, of 256 leaps each, list B
  with itself, and handing back the longer of list B and itself
- replaying a branch's day, whose questions are about the instants of one evening

and under a list of 256 leaps, a month apart, the calls for many questions about
instants at random,

beside
- the second program (rust/second), with the list prepared once
- the baseline (rust/bench/src/baseline.rs): unproved Rust tuned by hand
- ERFA, if bench is built with the feature erfa, which tools/bench looks to

and at last says which targets are met under list B, for random instants and for
those of one evening, by the calls about two lists and by a day's replay. Before it
times anything it compares the answers of archive, second program and baseline, also
under lists that expire within a month. The exit status is 0 whatever the times are,
1 if answers differ, and 2 for an unknown argument.
";

const COMPARED: &str = "\
compared: every question about every instant, answered by the archive's single calls, its
calls for many, the second program and the baseline; and how many answers had which number";

fn main() -> ExitCode {
    let arguments: Vec<String> = std::env::args().skip(1).collect();
    match arguments.first().map(String::as_str) {
        None => {}
        Some("--help") if arguments.len() == 1 => {
            print!("{HELP}");
            return ExitCode::SUCCESS;
        }
        Some(_) => {
            eprintln!("bench: unknown arguments: {}", arguments.join(" "));
            eprintln!("bench --help says what it does");
            return ExitCode::from(2);
        }
    }
    match run() {
        Ok(()) => ExitCode::SUCCESS,
        Err(error) => {
            eprintln!("bench: {error}");
            ExitCode::FAILURE
        }
    }
}

/// A list, the programs that have prepared it, and the instants.
struct Bench<'a> {
    list: &'a List,
    second: Second,
    baseline: Box<dyn Program>,
    sets: [Instants; 2],
}

impl<'a> Bench<'a> {
    fn new(list: &'a List) -> Result<Bench<'a>, String> {
        let second = Second::new(&list.words).ok_or("the second program refuses a list")?;
        let sets = [
            instants::random(list, &second.0),
            instants::one_day(list, &second.0),
        ];
        for set in &sets {
            if set.mjd.len() != COUNT {
                return Err(format!("{}: not every instant is known", set.name));
            }
        }
        let baseline = baseline::prepared(&list.words);
        Ok(Bench {
            list,
            second,
            baseline,
            sets,
        })
    }

    fn compare(&self) -> Result<(), String> {
        let words = &self.list.words;
        let programs: [&dyn Program; 4] =
            [&self.second, &Single(words), &Many(words), &*self.baseline];
        let refusals = instants::refusals(self.list, &self.second.0);
        for set in self.sets.iter().chain([&refusals]) {
            let counts = agree::questions(self.list, set, &programs)?;
            let (list, name, size) = (self.list.name, set.name, set.mjd.len());
            let counts = counts.join(", ");
            println!("  {list}, {size} {name}: {counts}");
        }
        agree::formats(self.list)
    }

    /// The tables of the questions; gives the times of each set of instants.
    fn questions(&self, with_erfa: bool) -> [Vec<Timed>; 2] {
        let words = &self.list.words;
        let programs: [&dyn Program; 4] =
            [&Single(words), &Many(words), &self.second, &*self.baseline];
        let sets = self.sets.each_ref();
        sets.map(|set| self.table(set, &programs, with_erfa))
    }

    /// The table of the calls for many questions, with random instants only.
    fn many(&self) {
        let programs: [&dyn Program; 2] = [&Many(&self.list.words), &*self.baseline];
        self.table(&self.sets[0], &programs, false);
    }

    fn table(&self, set: &Instants, programs: &[&dyn Program], with_erfa: bool) -> Vec<Timed> {
        let ratios = [
            ratio("x baseline", |timed, what| median(timed, what, BASELINE)),
            ratio("x ERFA", tables::erfa_time),
        ];
        let timed = cases::questions(set, programs, with_erfa);
        let title = format!("{}, {}: ns a call", self.list.name, set.name);
        let missing = if with_erfa { erfa::MISSING } else { &[] };
        tables::print(&title, &timed, &ratios, missing);
        timed
    }

    fn few(&self) {
        let words = &self.list.words;
        let programs: [&dyn Program; 2] = [&Many(words), &*self.baseline];
        let timed = cases::few(words, &self.sets[0], &programs);
        let title = format!(
            "{}, UTC to TAI, random instants, 1, 10 and 100 instants a call: ns a call",
            self.list.name
        );
        tables::print(&title, &timed, &[], &[]);
    }

    fn formats(&self) -> Vec<Timed> {
        let timed = cases::formats(self.list);
        let title = format!(
            "{}, {} bytes of text, {} of nybbles: ns a call",
            self.list.name,
            self.list.text.len(),
            self.list.nybbles.len()
        );
        let ratios = [ratio("x second", |timed, what| median(timed, what, SECOND))];
        tables::print(&title, &timed, &ratios, &[]);
        timed
    }
}

fn ratio(header: &'static str, to: fn(&[Timed], &str) -> Option<f64>) -> Ratio {
    Ratio { header, to }
}

fn run() -> Result<(), String> {
    let ([b, longest, densest], within_a_month) = &lists::all()?;
    let (b, longest, densest) = (Bench::new(b)?, Bench::new(longest)?, Bench::new(densest)?);
    println!("{COMPARED}");
    for bench in [&b, &longest, &densest] {
        bench.compare()?;
    }
    for list in within_a_month {
        Bench::new(list)?.compare()?;
    }
    println!("  all five lists as text and as nybbles, read and written");
    let (largest, b_twice) = (lists::largest(), lists::b_twice());
    for two in [&largest, &b_twice] {
        let (name, bytes) = (two.name, agree::two(two)?);
        println!("  two lists, {name}: compared in {bytes} bytes, and the longer of them");
    }
    let day = Day::new(b.list, &b.sets[1]);
    let (lines, bytes) = (day.lines, agree::day(&day)?);
    println!("  list B, a day of {lines} lines: replayed, {bytes} bytes printed");
    println!("  all equal");
    print_method();
    let questions = b.questions(true);
    longest.questions(false);
    densest.many();
    b.few();
    longest.few();
    let formats = b.formats();
    longest.formats();
    let two = two_lists(&largest, &b_twice);
    let replayed = replay(&day);
    for (set, timed) in b.sets.iter().zip(&questions) {
        targets::print_questions(set.name, timed);
    }
    targets::print_reading(&formats);
    targets::print_two(&two);
    targets::print_replay(&replayed);
    Ok(())
}

fn two_lists(largest: &Two, b: &Two) -> Vec<Timed> {
    let timed = cases::two_lists(largest, b);
    let title = "two lists, of 256 leaps each with none shared, and list B twice: ns a call";
    let ratios = [ratio("x second", |timed, what| median(timed, what, SECOND))];
    tables::print(title, &timed, &ratios, &[]);
    timed
}

fn replay(day: &Day) -> Vec<Timed> {
    let timed = cases::replay(day);
    let ratios = [ratio("x second", |timed, what| median(timed, what, SECOND))];
    let title = "list B, a day replayed, instants of one day: ns a line";
    tables::print(title, &timed, &ratios, &[]);
    timed
}

fn print_method() {
    println!(
        "
method: medians of {ROUNDS} rounds over {COUNT} instants (256 calls for lists by themselves),
  the rounds of the programs in turn, each after an untimed one. Inputs, outputs and the
  list's 2056 bytes are warm in the caches; outputs are allocated once and reused. The
  instants are the same in every round, so a branch on them may be learnt. The middle half
  is from the first to the third quartile of the rounds.
lists: list B of 01, 27 leaps, known through November 2021; 256 leaps, nine months apart;
  and 256 leaps, a month apart, for the calls for many with random instants only.
instants: random ones over all that a list knows; and an evening from 18:00:00 on, on the day
  that the list's last leap ends. Each has an answer to every question.
second program: `Prepared`, made once, a call for each instant. It is timed with overflow
  checks on, as it is built for the comparison (rust/Cargo.toml).
baseline: prepared once, one call for all instants, without overflow checks."
    );
    println!("{}", erfa::METHOD);
}
