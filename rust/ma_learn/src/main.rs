//! Learns or deepens a predictor tree, or reads one from its symbols, and shows it. See `HELP`.

use ma_learn::command_line::{
    self, Failure, Source, arguments, finish, is_option, write_out, write_stream_out,
};
use ma_learn::input::LearningJob;
use ma_learn::tree::Tree;
use ma_learn::words::counted;
use ma_learn::{dot, fault, input, symbols, text};
use std::ffi::OsString;
use std::io::{self, IsTerminal};
use std::process::ExitCode;

const HELP: &str = include_str!("ma_learn.help");

fn main() -> ExitCode {
    finish("ma_learn", asked(arguments()).and_then(answer))
}

/// What is written: the tree, or the stream's answer to a job.
#[derive(Clone, Copy, Debug, Eq, PartialEq)]
enum Form {
    Tree(Shown),
    Raw,
}

/// What the tree is written as.
#[derive(Clone, Copy, Debug, Eq, PartialEq)]
enum Shown {
    Text,
    Dot,
    Symbols,
}

const FORMS: &str = "one of --text, --dot, --symbols and --raw";

enum Request {
    Help,
    Version,
    Learn(Form, Source),
    FromSymbols(Shown, Source),
}

/// Reads the arguments.
fn asked(mut arguments: impl Iterator<Item = OsString>) -> Result<Request, Failure> {
    let (mut form, mut job, mut symbols) = (None, None, None);
    let mut write = |given| once(&mut form, given, FORMS);
    while let Some(argument) = arguments.next() {
        match argument.to_str() {
            Some("--help" | "-h") => return Ok(Request::Help),
            Some("--version") => return Ok(Request::Version),
            Some("--text") => write(Form::Tree(Shown::Text))?,
            Some("--dot") => write(Form::Tree(Shown::Dot))?,
            Some("--symbols") => write(Form::Tree(Shown::Symbols))?,
            Some("--raw") => write(Form::Raw)?,
            Some("--from-symbols") => {
                let source = file_of("--from-symbols", arguments.next())?;
                once(&mut symbols, source, "one --from-symbols")?;
            }
            _ if is_option(&argument) => return Err(command_line::unknown(&argument)),
            _ => once(&mut job, Source::named(&argument), "one file")?,
        }
    }
    request(form.unwrap_or(Form::Tree(Shown::Text)), job, symbols)
}

/// The file that an option takes.
fn file_of(option: &str, value: Option<OsString>) -> Result<Source, Failure> {
    match value {
        Some(name) if !is_option(&name) => Ok(Source::named(&name)),
        _ => Err(Failure::wrong(format!(
            "{option} takes a file, or '-' for standard input; --help says more"
        ))),
    }
}

/// A job to be learnt, or symbols to be read.
fn request(form: Form, job: Option<Source>, symbols: Option<Source>) -> Result<Request, Failure> {
    match (form, job, symbols) {
        (form, job, None) => Ok(Request::Learn(form, job.unwrap_or(Source::StandardInput))),
        (_, Some(_), Some(_)) => Err(Failure::wrong(
            "a job and --from-symbols cannot both be given; --help says more",
        )),
        (Form::Raw, None, Some(_)) => Err(Failure::wrong(
            "--raw answers a job, and --from-symbols has none; --help says more",
        )),
        (Form::Tree(shown), None, Some(symbols)) => Ok(Request::FromSymbols(shown, symbols)),
    }
}

/// Puts in what may be given once.
fn once<T>(place: &mut Option<T>, given: T, what: &str) -> Result<(), Failure> {
    match place.replace(given) {
        None => Ok(()),
        Some(_) => Err(Failure::wrong(format!(
            "at most {what} can be given; --help says more"
        ))),
    }
}

fn answer(request: Request) -> Result<(), Failure> {
    match request {
        Request::Help => write_out(HELP.as_bytes()),
        Request::Version => {
            write_out(concat!("ma_learn ", env!("CARGO_PKG_VERSION"), "\n").as_bytes())
        }
        Request::Learn(form, source) => {
            let job = input::read(&source.read()?).map_err(|why| source.wrong(why))?;
            learn(form, job)
        }
        Request::FromSymbols(shown, source) => draw(shown, &source),
    }
}

/// Runs the job and writes what came of it. A refusal is a failure in every form; as the stream's
/// answer it is written as well.
fn learn(form: Form, job: LearningJob) -> Result<(), Failure> {
    say_beforehand(&job);
    let run = jobs::run(job.job, job.deepens);
    let accepted = run.result.map_err(Failure::refused);
    match (form, Tree::of(&run)) {
        (Form::Raw, _) => write_stream_out(&run.into_answer().message())?,
        (Form::Tree(shown), Some(tree)) => show(&tree, shown)?,
        (Form::Tree(_), None) => {}
    }
    accepted.map(|_| ())
}

/// Reads symbols and writes their tree. Of symbols that are refused it is said which one is at fault.
fn draw(shown: Shown, source: &Source) -> Result<(), Failure> {
    let symbols = symbols::read(&source.read()?).map_err(|why| source.wrong(why))?;
    let nodes = symbols::nodes(&symbols).map_err(|refusal| {
        let refused = Failure::refused(refusal);
        match fault::of(&symbols) {
            Some(fault) => refused.with(fault),
            None => refused,
        }
    })?;
    show(&Tree::read(&nodes), shown)
}

fn show(tree: &Tree<'_>, shown: Shown) -> Result<(), Failure> {
    let text = match shown {
        Shown::Text => text::of(tree),
        Shown::Dot => dot::of(tree),
        Shown::Symbols => symbols::of(tree).map_err(Failure::refused)?,
    };
    write_out(text.as_bytes())
}

/// Learning is one call and can take seconds: who watches is told.
fn say_beforehand(job: &LearningJob) {
    if io::stderr().is_terminal() {
        let what = if job.deepens {
            "deepening with"
        } else {
            "learning from"
        };
        eprintln!("{what} {} ..", counted(job.rows(), "row", "rows"));
    }
}
