//! Interleaved repetitions and their medians, in processor time: what else runs on the
//! machine then weighs less than on the clock.

use std::ffi::{c_int, c_long};
use std::fmt::Debug;
use std::ops::RangeInclusive;
use std::time::Duration;

/// Repetitions of each side: as many as a few seconds hold, and an odd number.
const REPETITIONS: RangeInclusive<usize> = 7..=101;
const ENOUGH: Duration = Duration::from_secs(5);

/// The time of one run and what it gave, for the comparison of both sides.
pub type Run<T> = (Duration, T);

/// Times `work` alone: what it works on is made before, and dropped after.
pub fn timed<S, T>(mut state: S, work: impl FnOnce(&mut S) -> T) -> (Duration, S, T) {
    let start = processor_time();
    let given = work(&mut state);
    (processor_time() - start, state, given)
}

/// The C library's `timespec`.
#[repr(C)]
struct Timespec {
    seconds: c_long,
    nanoseconds: c_long,
}

/// Linux's `CLOCK_THREAD_CPUTIME_ID`.
const THREAD_TIME: c_int = 3;

unsafe extern "C" {
    fn clock_gettime(clock: c_int, time: *mut Timespec) -> c_int;
}

fn processor_time() -> Duration {
    let mut now = Timespec {
        seconds: 0,
        nanoseconds: 0,
    };
    // SAFETY: `now` has the layout of x86-64 Linux's `timespec`.
    let status = unsafe { clock_gettime(THREAD_TIME, &mut now) };
    assert_eq!(status, 0, "no clock");
    Duration::new(now.seconds as u64, now.nanoseconds as u32)
}

pub fn heading() {
    println!(
        "{:78} {:>11} {:>11} {:>6} {:>9} {:>9}",
        "", "Rust, us", "port, us", "ratio", "Rust, M/s", "port, M/s"
    );
}

/// Runs both sides by turns, the first to go changing, holds their answers to each
/// other, and prints the medians and their ratio.
pub fn row<T: PartialEq + Debug>(
    name: &str,
    rust: impl FnMut() -> Run<T>,
    port: impl FnMut() -> Run<T>,
) {
    let [rust, port] = medians(name, rust, port).map(micros);
    println!("{}", columns(name, rust, port));
}

/// The same for work on so many items: the millions of them a second stand beside it.
pub fn row_of_items<T: PartialEq + Debug>(
    name: &str,
    items: usize,
    rust: impl FnMut() -> Run<T>,
    port: impl FnMut() -> Run<T>,
) {
    let [rust, port] = medians(name, rust, port).map(micros);
    let rate = |time: f64| items as f64 / time;
    let columns = columns(name, rust, port);
    println!("{columns} {:9.1} {:9.1}", rate(rust), rate(port));
}

fn micros(time: Duration) -> f64 {
    time.as_secs_f64() * 1e6
}

fn columns(name: &str, rust: f64, port: f64) -> String {
    format!("{name:78} {rust:11.1} {port:11.1} {:6.2}", port / rust)
}

fn medians<T: PartialEq + Debug>(
    name: &str,
    mut rust: impl FnMut() -> Run<T>,
    mut port: impl FnMut() -> Run<T>,
) -> [Duration; 2] {
    let mut times = [Vec::new(), Vec::new()];
    let mut spent = Duration::ZERO;
    for turn in 0..*REPETITIONS.end() {
        let ((rust_time, expected), (port_time, given)) = if turn % 2 == 0 {
            let first = rust();
            (first, port())
        } else {
            let first = port();
            (rust(), first)
        };
        assert!(given == expected, "{name}: the answers differ");
        times[0].push(rust_time);
        times[1].push(port_time);
        spent += rust_time + port_time;
        let repetitions = turn + 1;
        if spent >= ENOUGH && repetitions >= *REPETITIONS.start() && repetitions % 2 == 1 {
            break;
        }
    }
    times.map(median)
}

fn median(mut times: Vec<Duration>) -> Duration {
    times.sort_unstable();
    times[times.len() / 2]
}
