//! What the programs share: files, the lines of a text, and how a program ends.

use std::fs;
use std::io::{self, BufWriter, StdoutLock, Write};
use std::process::ExitCode;

/// The bytes of a file.
pub fn load(file: &str) -> Result<Vec<u8>, String> {
    fs::read(file).map_err(|error| format!("{file}: {error}"))
}

/// The lines that say something, with their numbers from 1.
pub fn speaking_lines(text: &[u8]) -> impl Iterator<Item = (usize, &[u8])> {
    let numbered = (1..).zip(text.split(|&byte| byte == b'\n'));
    numbered.filter(|(_, line)| !line.is_empty() && line[0] != b'#')
}

/// Writes to the standard output, in pieces of 64 KiB.
pub fn print(
    write: impl FnOnce(&mut BufWriter<StdoutLock>) -> io::Result<()>,
) -> Result<(), String> {
    let mut out = BufWriter::with_capacity(1 << 16, io::stdout().lock());
    let written = write(&mut out).and_then(|()| out.flush());
    written.map_err(|error| error.to_string())
}

/// Runs the program of that name on the words after it. A refusal goes to the standard error.
pub fn run_words(name: &str, run: impl FnOnce(&[String]) -> Result<(), String>) -> ExitCode {
    let words: Vec<String> = std::env::args().skip(1).collect();
    match run(&words) {
        Ok(()) => ExitCode::SUCCESS,
        Err(reason) => {
            eprintln!("{name}: {reason}");
            ExitCode::FAILURE
        }
    }
}
