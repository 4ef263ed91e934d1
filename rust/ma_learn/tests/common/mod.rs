//! Running the programs.

use std::io::Write;
use std::path::PathBuf;
use std::process::{Command, Stdio};

/// What a program left.
pub struct Ran {
    pub status: Option<i32>,
    pub output: Vec<u8>,
    pub errors: String,
}

/// Runs a program with these bytes on standard input.
pub fn run(program: &str, arguments: &[&str], input: &[u8]) -> Ran {
    let mut child = Command::new(program)
        .args(arguments)
        .stdin(Stdio::piped())
        .stdout(Stdio::piped())
        .stderr(Stdio::piped())
        .spawn()
        .expect("the program starts");
    let mut pipe = child.stdin.take().expect("standard input is a pipe");
    let bytes = input.to_vec();
    // The program may end without reading.
    let writer = std::thread::spawn(move || drop(pipe.write_all(&bytes)));
    let output = child.wait_with_output().expect("the program ends");
    writer.join().expect("the writer ends");
    Ran {
        status: output.status.code(),
        output: output.stdout,
        errors: String::from_utf8(output.stderr).expect("messages are text"),
    }
}

/// A file of this name and content, in a folder of this test run alone.
pub fn file(name: &str, content: &[u8]) -> PathBuf {
    let folder = PathBuf::from(env!("CARGO_TARGET_TMPDIR")).join(std::process::id().to_string());
    std::fs::create_dir_all(&folder).expect("the folder can be made");
    let path = folder.join(name);
    std::fs::write(&path, content).expect("the file can be written");
    path
}

/// Nothing came out, and this is the one message.
pub fn assert_fails(ran: &Ran, status: i32, message: &str) {
    assert_eq!(ran.errors, format!("{message}\n"));
    assert_eq!(ran.status, Some(status));
    assert!(ran.output.is_empty(), "something came out");
}
