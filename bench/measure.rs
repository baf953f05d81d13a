//! Runs a program once and tells how long it took and how much memory it had.
//!
//!     measure PROGRAM INPUT OUTPUT
//!
//! INPUT becomes its standard input and OUTPUT its standard output. Printed are
//! nanoseconds and kilobytes (ru_maxrss). A child's ru_maxrss starts from the
//! memory of the process that starts it, so a small one does this here: started
//! from Python, every program would seem to be as large as Python.

use std::env;
use std::fs::File;
use std::io;
use std::process::{Command, ExitCode};
use std::time::Instant;

/// struct rusage of Linux on 64 bits; only the largest memory is read.
#[repr(C)]
#[derive(Default)]
struct Usage {
    times: [i64; 4],
    largest_kilobytes: i64,
    others: [i64; 13],
}

const CHILDREN: i32 = -1;

extern "C" {
    fn getrusage(who: i32, usage: *mut Usage) -> i32;
}

fn largest_kilobytes() -> io::Result<i64> {
    let mut usage = Usage::default();
    // SAFETY: getrusage fills one struct of this layout and keeps no pointer.
    if unsafe { getrusage(CHILDREN, &mut usage) } != 0 {
        return Err(io::Error::last_os_error());
    }
    Ok(usage.largest_kilobytes)
}

fn measure(program: &str, input: &str, output: &str) -> io::Result<bool> {
    let mut command = Command::new(program);
    command
        .stdin(File::open(input)?)
        .stdout(File::create(output)?);
    let began = Instant::now();
    let status = command.status()?;
    let taken = began.elapsed().as_nanos();
    println!("{} {}", taken, largest_kilobytes()?);
    Ok(status.success())
}

fn main() -> ExitCode {
    let arguments: Vec<String> = env::args().skip(1).collect();
    let [program, input, output] = &arguments[..] else {
        eprintln!("usage: measure PROGRAM INPUT OUTPUT");
        return ExitCode::from(2);
    };
    match measure(program, input, output) {
        Ok(true) => ExitCode::SUCCESS,
        Ok(false) => {
            eprintln!("measure: {program} did not end with status 0");
            ExitCode::FAILURE
        }
        Err(error) => {
            eprintln!("measure: {program}: {error}");
            ExitCode::FAILURE
        }
    }
}
