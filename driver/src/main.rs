//! The driver: reads jobs on standard input, writes what the port answers on standard
//! output.
//!
//!     driver < jobs > answers

mod operations;
mod pruning;
mod scoring;

use driver::port::Counts;
use std::io::{self, BufReader, BufWriter, Write};
use std::process::ExitCode;
use stream::{Damaged, Job, Messages, write_message};

fn main() -> ExitCode {
    if std::env::args().len() != 1 {
        eprintln!("usage: driver < jobs > answers");
        return ExitCode::from(2);
    }
    match answer_all() {
        Ok(()) => ExitCode::SUCCESS,
        Err(damaged) => {
            eprintln!("driver: {damaged}");
            ExitCode::FAILURE
        }
    }
}

fn answer_all() -> Result<(), Damaged> {
    let input = BufReader::with_capacity(1 << 20, io::stdin().lock());
    let mut output = BufWriter::with_capacity(1 << 20, io::stdout().lock());
    let Some(mut jobs) = Messages::greet(input, &mut output)? else {
        return Ok(());
    };
    let mut counts = Counts::default();
    while let Some(message) = jobs.next_message()? {
        let answer = operations::answer(Job::read(&message)?, &mut counts);
        write_message(&mut output, &answer.message())?;
    }
    output.flush()?;
    Ok(())
}
