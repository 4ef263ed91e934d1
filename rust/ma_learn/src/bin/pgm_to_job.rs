//! Makes a job of learning from a picture. See `HELP`.

use ma_learn::command_line::{
    self, Failure, Source, arguments, finish, is_option, write_out, write_stream_out,
};
use ma_learn::job::{self, MOST_ROWS};
use ma_learn::pgm;
use std::ffi::OsString;
use std::io::{self, IsTerminal};
use std::ops::RangeInclusive;
use std::process::ExitCode;
use std::str::FromStr;
use stream::{Job, Settings};

const HELP: &str = include_str!("../pgm_to_job.help");

fn main() -> ExitCode {
    finish("pgm_to_job", asked(arguments()).and_then(answer))
}

enum Request {
    Help,
    Version,
    Make(Making),
}

struct Making {
    settings: Settings,
    rows: u32,
    sheet: Source,
}

/// Reads the arguments.
fn asked(mut arguments: impl Iterator<Item = OsString>) -> Result<Request, Failure> {
    let mut settings = job::default_settings();
    let mut rows = MOST_ROWS;
    let mut sheet = None;
    while let Some(argument) = arguments.next() {
        let option = argument.to_str().unwrap_or_default();
        let mut value = || arguments.next();
        match option {
            "--help" | "-h" => return Ok(Request::Help),
            "--version" => return Ok(Request::Version),
            "--limit" => settings.limit = number(option, value(), 1..=4_096)?,
            "--split-cost" => settings.split_cost = number(option, value(), 0.0..=1_048_576.0)?,
            "--price" => settings.price = number(option, value(), 0.0..=1_048_576.0)?,
            "--smallest" => settings.smallest_node = number(option, value(), 0..=65_536)?,
            "--candidates" => settings.candidates = number(option, value(), 0..=32)?,
            "--side-predictors" => settings.side_predictors = number(option, value(), 1..=14)?,
            "--rows" => rows = number(option, value(), 1..=MOST_ROWS)?,
            "--no-weighted" => settings.weighted = false,
            "--no-modes" => settings.modal_offsets = false,
            "--no-settling" => settings.settling = false,
            _ if is_option(&argument) => return Err(command_line::unknown(&argument)),
            _ if sheet.is_some() => {
                return Err(Failure::wrong("one sheet is due; --help says more"));
            }
            _ => sheet = Some(Source::named(&argument)),
        }
    }
    let sheet = sheet.ok_or_else(|| Failure::wrong("no sheet is named; --help says more"))?;
    Ok(Request::Make(Making {
        settings,
        rows,
        sheet,
    }))
}

/// The value of an option: a number in its range.
fn number<T>(option: &str, value: Option<OsString>, range: RangeInclusive<T>) -> Result<T, Failure>
where
    T: FromStr + PartialOrd + std::fmt::Display,
{
    let given = value.as_ref().and_then(|value| value.to_str());
    let number = given.and_then(|text| text.parse().ok());
    number
        .filter(|number| range.contains(number))
        .ok_or_else(|| {
            let (low, high) = range.into_inner();
            Failure::wrong(format!("{option} takes a number from {low} to {high}"))
        })
}

fn answer(request: Request) -> Result<(), Failure> {
    match request {
        Request::Help => write_out(HELP.as_bytes()),
        Request::Version => {
            write_out(concat!("pgm_to_job ", env!("CARGO_PKG_VERSION"), "\n").as_bytes())
        }
        Request::Make(making) => make(making),
    }
}

fn make(making: Making) -> Result<(), Failure> {
    let sheet = making.sheet;
    if io::stdout().is_terminal() {
        return Err(Failure::wrong(
            "a job is no text for a terminal; send it to a file or to ma_learn",
        ));
    }
    let picture = pgm::read(&sheet.read()?).map_err(|why| sheet.wrong(why))?;
    let lines = job::lines_taken(&picture, making.rows).map_err(|why| sheet.wrong(why))?;
    if lines.len() < picture.height() {
        eprintln!(
            "pgm_to_job: {sheet}: {} of {} lines are taken, evenly spread",
            lines.len(),
            picture.height()
        );
    }
    let job = Job::Learn(job::of_lines(&picture, &lines, making.settings));
    write_stream_out(&job.message())
}
