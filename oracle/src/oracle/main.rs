//! The oracle: reads jobs on standard input, writes what the original Rust
//! answers on standard output.
//!
//!     oracle [--number-ties | --rust-ties] < jobs > answers

mod adaptive_quant;
mod additions;
mod bit_writer;
mod coder_scratch;
mod depths;
mod entropy;
mod lossless;
#[allow(dead_code, unused_imports)]
#[path = "../../target/generated/ma_tree/mod.rs"]
mod ma_tree;
mod marks;
mod operations;
mod refusals;
mod symbols;
mod thread_pool;
mod ties;
mod util;

#[cfg(test)]
mod bench;
#[cfg(test)]
mod plain;
#[cfg(test)]
mod scores;
#[cfg(test)]
mod stored_depths;

use coder_scratch::CoderScratch;
use std::io::{self, BufReader, BufWriter, Write};
use std::process::ExitCode;
use stream::{Damaged, Job, Messages, write_message};

fn main() -> ExitCode {
    let options: Vec<_> = std::env::args().skip(1).collect();
    match options.iter().map(String::as_str).collect::<Vec<_>>()[..] {
        [] => {}
        ["--number-ties"] => ties::go_by(ties::Other::NumberAlone),
        ["--rust-ties"] => ties::go_by(ties::Other::Heap),
        _ => {
            eprintln!("usage: oracle [--number-ties | --rust-ties] < jobs > answers");
            return ExitCode::from(2);
        }
    }
    match answer_all() {
        Ok(()) => ExitCode::SUCCESS,
        Err(damaged) => {
            eprintln!("oracle: {damaged}");
            ExitCode::FAILURE
        }
    }
}

fn answer_all() -> Result<(), Damaged> {
    let input = BufReader::with_capacity(1 << 20, io::stdin().lock());
    let mut output = BufWriter::with_capacity(1 << 20, io::stdout().lock());
    let Some(mut jobs) = Messages::greet(input, &mut output)? else {
        return Ok(());
    };
    let mut scratch = CoderScratch::default();
    while let Some(message) = jobs.next_message()? {
        let answer = operations::answer(Job::read(&message)?, &mut scratch)?;
        write_message(&mut output, &answer.message())?;
    }
    output.flush()?;
    Ok(())
}
