//! From a picture to a job as a program.

mod common;

use common::{Ran, assert_fails, file, run};
use stream::{Job, Learning, Messages, STATE};

const MA_LEARN: &str = env!("CARGO_BIN_EXE_ma_learn");
const PGM_TO_JOB: &str = env!("CARGO_BIN_EXE_pgm_to_job");

const SHEET: &[u8] = b"P2\n# two greys\n4 3\n255\n9 9 9 9\n9 7 7 9\n9 9 9 9\n";

fn job(arguments: &[&str], sheet: &[u8]) -> Learning {
    let ran = run(PGM_TO_JOB, arguments, sheet);
    assert_eq!((ran.status, ran.errors.as_str()), (Some(0), ""));
    let mut messages = Messages::open(&ran.output[..]).expect("a stream of this state");
    let mut next = || messages.next_message().expect("a sound stream");
    let message = next().expect("a message");
    assert!(next().is_none(), "one message");
    match Job::read(&message) {
        Ok(Job::Learn(job)) => job,
        _ => panic!("no job of learning"),
    }
}

#[test]
fn default_settings() {
    let job = job(&["-"], SHEET);
    assert_eq!(job.settings, ma_learn::job::default_settings());
    assert_eq!(job.residuals, [9, 9, 9, 9, 9, 7, 7, 9, 9, 9, 9, 9]);
    assert_eq!(
        (job.properties.len(), job.tokens.len(), job.logarithms.len()),
        (24 * 12, 14 * 12, 13)
    );
    assert_eq!(
        (job.nodes.entries, job.span_entries, job.queue_entries),
        (127, 127, 64)
    );
}

#[test]
fn options() {
    let numbers = [
        "--limit",
        "3",
        "--split-cost",
        "0.5",
        "--price",
        "0",
        "--smallest",
        "2",
        "--candidates",
        "5",
    ];
    let more = [
        "--side-predictors",
        "2",
        "--no-weighted",
        "--no-modes",
        "--no-settling",
        "-",
    ];
    let s = job(&[&numbers[..], &more].concat(), SHEET).settings;
    assert_eq!(
        (
            s.limit,
            s.split_cost,
            s.price,
            s.smallest_node,
            s.candidates
        ),
        (3, 0.5, 0.0, 2, 5)
    );
    assert_eq!(
        (s.side_predictors, s.weighted, s.modal_offsets, s.settling),
        (2, false, false, false)
    );
}

#[test]
fn the_learner_takes_it() {
    let ran = run(PGM_TO_JOB, &["-"], SHEET);
    let ran = run(MA_LEARN, &[], &ran.output);
    let text = String::from_utf8(ran.output).expect("text");
    assert_eq!(
        (ran.status, text.starts_with("rows            12\n")),
        (Some(0), true)
    );
}

#[test]
fn large_sheets_are_sampled_by_lines() {
    let ran = run(PGM_TO_JOB, &["--rows", "8", "-"], SHEET);
    let message = "pgm_to_job: standard input: 2 of 3 lines are taken, evenly spread\n";
    assert_eq!((ran.status, ran.errors.as_str()), (Some(0), message));
    let wide = run(PGM_TO_JOB, &["--rows", "3", "-"], SHEET);
    assert_fails(
        &wide,
        2,
        "pgm_to_job: standard input: a line of 4 pixels does not fit into 3 rows",
    );
}

#[test]
fn wrong_sheets() {
    let path = file("cut.pgm", b"P5 3 2 255\n12345");
    let path = path.to_str().expect("a plain path");
    let ran = run(PGM_TO_JOB, &[path], b"");
    assert_fails(
        &ran,
        2,
        &format!("pgm_to_job: {path}: cut short: 5 of 6 pixels are there"),
    );
    let none = run(PGM_TO_JOB, &["no/such.pgm"], b"");
    assert_fails(
        &none,
        2,
        "pgm_to_job: no/such.pgm: No such file or directory (os error 2)",
    );
    let png = run(PGM_TO_JOB, &["-"], b"\x89PNG");
    assert_fails(
        &png,
        2,
        "pgm_to_job: standard input: no PGM picture: it starts with neither P5 nor P2",
    );
}

fn fails(arguments: &[&str], message: &str) {
    assert_fails(
        &run(PGM_TO_JOB, arguments, SHEET),
        2,
        &format!("pgm_to_job: {message}"),
    );
}

#[test]
fn arguments() {
    fails(&[], "no sheet is named; --help says more");
    fails(&["one", "two"], "one sheet is due; --help says more");
    fails(
        &["--gain", "-"],
        "no option --gain; --help says which there are",
    );
    fails(
        &["--limit", "0", "-"],
        "--limit takes a number from 1 to 4096",
    );
    fails(
        &["--limit", "4097", "-"],
        "--limit takes a number from 1 to 4096",
    );
    fails(
        &["--price", "NaN", "-"],
        "--price takes a number from 0 to 1048576",
    );
    fails(
        &["--price", "-1", "-"],
        "--price takes a number from 0 to 1048576",
    );
    fails(
        &["-", "--candidates"],
        "--candidates takes a number from 0 to 32",
    );
    let Ran { status, output, .. } = run(PGM_TO_JOB, &["--help"], b"");
    let help = String::from_utf8(output).expect("text");
    assert!(status == Some(0) && help.contains("usage: pgm_to_job [options] SHEET.pgm > job"));
    assert!(help.contains(&format!("stream of state {STATE}:")));
    assert_eq!(
        run(PGM_TO_JOB, &["--version"], b"").output,
        b"pgm_to_job 1.0.0\n"
    );
}
