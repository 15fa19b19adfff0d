//! Runs a command, and says what it took: `measure FILE COMMAND..` appends a line to FILE with the
//! seconds on the wall, of the processor for the command and for the system on its behalf, and the
//! most memory that it had at once, in MiB. Ends with the command's status.

use std::env;
use std::fs::OpenOptions;
use std::io::Write;
use std::process::{Command, ExitCode};
use std::time::Instant;

/// What the C library's `getrusage` fills in: two times, the most memory in KiB, and more.
#[repr(C)]
#[derive(Default)]
struct Usage {
    user: [i64; 2],
    system: [i64; 2],
    memory: i64,
    more: [i64; 13],
}

const OF_CHILDREN: i32 = -1;

unsafe extern "C" {
    fn getrusage(who: i32, usage: *mut Usage) -> i32;
}

fn usage_of_children() -> Usage {
    let mut usage = Usage::default();
    // SAFETY: the structure has the layout of Linux on 64 bits, and lives until the call returns.
    unsafe { getrusage(OF_CHILDREN, &mut usage) };
    usage
}

fn seconds(time: [i64; 2]) -> f64 {
    time[0] as f64 + time[1] as f64 / 1e6
}

fn main() -> ExitCode {
    let words: Vec<String> = env::args().skip(1).collect();
    let [file, command, rest @ ..] = words.as_slice() else {
        eprintln!("usage: measure FILE COMMAND..");
        return ExitCode::from(2);
    };
    let began = Instant::now();
    let status = Command::new(command).args(rest).status();
    let wall = began.elapsed().as_secs_f64();
    let usage = usage_of_children();
    let (user, system) = (seconds(usage.user), seconds(usage.system));
    let memory = usage.memory as f64 / 1024.0;
    let line = format!("{wall:.3} {user:.3} {system:.3} {memory:.1}\n");
    let noted = OpenOptions::new().create(true).append(true).open(file);
    match (status, noted.and_then(|mut it| it.write_all(line.as_bytes()))) {
        (Ok(status), Ok(())) => ExitCode::from(status.code().unwrap_or(70) as u8),
        _ => ExitCode::from(70),
    }
}
