//! Runs a program once and prints the processor time that it took, in microseconds, and its peak memory, in KiB.
//!
//! Words: `INPUT PROGRAM WORD..`. The program reads the file `INPUT`; what it writes is thrown away.
//! Linux counts into a program's peak what the process that started it held, so that process is small.

use std::env;
use std::fs::File;
use std::io;
use std::process::{Command, ExitCode, Stdio};

/// `struct rusage` of 64-bit Linux.
#[repr(C)]
#[derive(Default)]
struct Usage {
    user_seconds: i64,
    user_microseconds: i64,
    system_seconds: i64,
    system_microseconds: i64,
    peak: i64,
    others: [i64; 13],
}

unsafe extern "C" {
    fn wait4(process: i32, status: *mut i32, options: i32, usage: *mut Usage) -> i32;
}

/// Waits for a process to end: its status and what it used.
fn wait(process: u32) -> io::Result<(i32, Usage)> {
    let mut status = 0;
    let mut usage = Usage::default();
    // SAFETY: both pointers are to live values of the types that the call fills.
    let ended = unsafe { wait4(process as i32, &mut status, 0, &mut usage) };
    if ended < 0 {
        return Err(io::Error::last_os_error());
    }
    Ok((status, usage))
}

fn run(words: &[String]) -> io::Result<ExitCode> {
    let [input, program, words @ ..] = words else {
        return Err(io::Error::other("too few words"));
    };
    let child = Command::new(program)
        .args(words)
        .stdin(File::open(input)?)
        .stdout(Stdio::null())
        .spawn()?;
    let (status, usage) = wait(child.id())?;
    if status != 0 {
        return Err(io::Error::other(format!("{program} ended with the wait status {status}")));
    }
    let seconds = usage.user_seconds + usage.system_seconds;
    let microseconds = usage.user_microseconds + usage.system_microseconds;
    println!("{} {}", seconds * 1_000_000 + microseconds, usage.peak);
    Ok(ExitCode::SUCCESS)
}

fn main() -> ExitCode {
    let words: Vec<String> = env::args().skip(1).collect();
    run(&words).unwrap_or_else(|error| {
        eprintln!("measure: {error}");
        ExitCode::FAILURE
    })
}
