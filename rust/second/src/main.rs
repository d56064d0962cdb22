//! `second figures`   every figure of the papers, one a line (see figures.rs)
//! `second plain`     the figures in the lines of the proved program (see plain.rs)
//! `second months`    the month of every day in the lines of the proved program (see months.rs)
//! `second ask`       a question a line from standard input, an answer a line
//! `second replay`    a trace from standard input, what its lines print (see replay.rs)
//! `second WORD ..`   one question of `ask` given as arguments, which a space
//!                    joins to a line; what `ask` joins by `; ` is then
//!                    printed a line each
//!
//! Exit status: 0; 1 if a figure is wrong or a single question is refused;
//! 2 for what is no question.

#![forbid(unsafe_code)]

use std::ffi::OsString;
use std::io::{self, Write};
use std::os::unix::ffi::OsStrExt;
use std::process::ExitCode;

use second::ask::{self, Desk, Reply};
use second::{figures, months, plain, replay};

fn print(lines: &[String], status: u8) -> io::Result<ExitCode> {
    let mut out = io::stdout().lock();
    for line in lines {
        writeln!(out, "{line}")?;
    }
    Ok(ExitCode::from(status))
}

fn single(words: &[OsString]) -> io::Result<ExitCode> {
    let words: Vec<&[u8]> = words.iter().map(|w| w.as_bytes()).collect();
    let (lines, status) = match Desk::new().question(&words.join(&b' ')) {
        Reply::Answer(lines) => (lines, 0),
        Reply::Refused(line) => (vec![line], 1),
        Reply::NoQuestion => (vec!["? no question".to_string()], 2),
    };
    print(&lines, status)
}

fn main() -> io::Result<ExitCode> {
    let words: Vec<OsString> = std::env::args_os().skip(1).collect();
    let names: Vec<&[u8]> = words.iter().map(|w| w.as_bytes()).collect();
    match names[..] {
        [b"figures"] => {
            let mut out = io::stdout().lock();
            let mut status = ExitCode::SUCCESS;
            for figure in figures::figures() {
                writeln!(out, "{figure}")?;
                if !figure.is_right() {
                    status = ExitCode::from(1);
                }
            }
            Ok(status)
        }
        [b"plain"] => print(&plain::lines(), 0),
        [b"months"] => print(&months::lines(), 0),
        [b"ask"] => ask::run(io::stdin().lock(), io::stdout().lock()).map(|()| ExitCode::SUCCESS),
        [b"replay"] => {
            replay::run(io::stdin().lock(), io::stdout().lock()).map(|()| ExitCode::SUCCESS)
        }
        _ => single(&words),
    }
}
