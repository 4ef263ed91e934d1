//! What both programs share: where input comes from, messages, exit statuses.

use ostrovuc::Refusal;
use std::ffi::{OsStr, OsString};
use std::fmt;
use std::fs;
use std::io::{self, ErrorKind, IsTerminal, Read, Write};
use std::path::PathBuf;
use std::process::ExitCode;
use stream::{Message, STATE, version, write_message};

/// The exit status where the library refuses the job, or the symbols.
const REFUSED: u8 = 1;
/// The exit status where there is nothing to run: a wrong file, or wrong arguments.
const WRONG: u8 = 2;

/// Why a program ends early, in a sentence for its user.
#[derive(Debug)]
pub struct Failure {
    status: u8,
    message: String,
}

impl Failure {
    pub fn wrong(message: impl Into<String>) -> Self {
        Self {
            status: WRONG,
            message: message.into(),
        }
    }

    pub fn refused(refusal: Refusal) -> Self {
        let (number, place) = (refusal.number(), refusal.place());
        Self {
            status: REFUSED,
            message: format!("refused: number {number}, place {place}: {refusal}"),
        }
    }

    /// The same, with more that is known of it.
    pub fn with(self, more: impl fmt::Display) -> Self {
        Self {
            message: format!("{}; {more}", self.message),
            ..self
        }
    }
}

/// The exit status; a failure's message goes to standard error, under the program's name.
pub fn finish(program: &str, result: Result<(), Failure>) -> ExitCode {
    match result {
        Ok(()) => ExitCode::SUCCESS,
        Err(Failure { status, message }) => {
            eprintln!("{program}: {message}");
            ExitCode::from(status)
        }
    }
}

/// Where input comes from.
#[derive(Debug, Eq, PartialEq)]
pub enum Source {
    StandardInput,
    File(PathBuf),
}

impl Source {
    /// `-` is standard input.
    pub fn named(name: &OsStr) -> Self {
        if name == "-" {
            Self::StandardInput
        } else {
            Self::File(name.into())
        }
    }

    /// All its bytes. Nobody types them in at a terminal.
    pub fn read(&self) -> Result<Vec<u8>, Failure> {
        if *self == Self::StandardInput && io::stdin().is_terminal() {
            return Err(self.wrong("a terminal, where a file is due; --help says more"));
        }
        let mut bytes = Vec::new();
        let read = match self {
            Self::StandardInput => io::stdin().lock().read_to_end(&mut bytes).map(|_| bytes),
            Self::File(path) => fs::read(path),
        };
        read.map_err(|error| self.wrong(error))
    }

    /// A failure that names the source.
    pub fn wrong(&self, why: impl fmt::Display) -> Failure {
        Failure::wrong(format!("{self}: {why}"))
    }
}

impl fmt::Display for Source {
    fn fmt(&self, f: &mut fmt::Formatter<'_>) -> fmt::Result {
        match self {
            Self::StandardInput => f.write_str("standard input"),
            Self::File(path) => write!(f, "{}", path.display()),
        }
    }
}

/// Writes to standard output. A reader who has gone away is no failure.
pub fn write_out(bytes: &[u8]) -> Result<(), Failure> {
    let mut output = io::stdout().lock();
    match output.write_all(bytes).and_then(|()| output.flush()) {
        Err(error) if error.kind() != ErrorKind::BrokenPipe => {
            Err(Failure::wrong(format!("standard output: {error}")))
        }
        _ => Ok(()),
    }
}

/// Writes a stream to standard output: the version message, then a job or an answer.
pub fn write_stream_out(message: &Message) -> Result<(), Failure> {
    let mut bytes = Vec::new();
    [&version(STATE), message]
        .into_iter()
        .try_for_each(|message| write_message(&mut bytes, message))
        .map_err(|damaged| Failure::wrong(damaged.to_string()))?;
    write_out(&bytes)
}

/// A program's arguments, without its name.
pub fn arguments() -> impl Iterator<Item = OsString> {
    std::env::args_os().skip(1)
}

/// Whether an argument is an option and not a file.
pub fn is_option(argument: &OsStr) -> bool {
    argument != "-" && argument.as_encoded_bytes().starts_with(b"-")
}

/// An option that a program does not have.
pub fn unknown(option: &OsStr) -> Failure {
    Failure::wrong(format!(
        "no option {}; --help says which there are",
        option.display()
    ))
}
