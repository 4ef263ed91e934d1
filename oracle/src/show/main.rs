//! Prints one job or one answer of a stream in words, to look at a difference; the first is 0, a version message none:
//!
//!     show job INDEX < jobs
//!     show answer INDEX < answers

mod text;

use std::io::{self, BufReader, Write};
use std::process::ExitCode;
use stream::{Answer, Damaged, Job, Messages};

const USAGE: &str = "usage: show (job|answer) INDEX < stream";

fn main() -> ExitCode {
    let arguments: Vec<String> = std::env::args().skip(1).collect();
    let shown = match &arguments[..] {
        [what, index] => show(what, index),
        _ => Err(Damaged(USAGE.into())),
    };
    let printed = shown.and_then(|text| Ok(io::stdout().write_all(text.as_bytes())?));
    match printed {
        Ok(()) => ExitCode::SUCCESS,
        Err(Damaged(what)) => {
            eprintln!("show: {what}");
            ExitCode::FAILURE
        }
    }
}

fn show(what: &str, index: &str) -> Result<String, Damaged> {
    let Ok(index) = index.parse::<u64>() else {
        return Err(Damaged(USAGE.into()));
    };
    let mut messages = Messages::open(BufReader::new(io::stdin().lock()))?;
    for _ in 0..index {
        messages.next_message()?;
    }
    let Some(message) = messages.next_message()? else {
        return Err(Damaged(format!("the stream has no message {index}")));
    };
    match what {
        "job" => Ok(text::job(&Job::read(&message)?)),
        "answer" => Ok(text::answer(&Answer::read(&message)?)),
        _ => Err(Damaged(USAGE.into())),
    }
}
