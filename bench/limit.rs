//! Only reads the files and writes as many lines as a report has: `limit CHANGES SCHEMA LANE..`.
//!
//! It asks no map, so it can't know how many changes are made: CHANGES says it. Where a report has
//! an answer or a change, it writes a line of the lane again.

mod files;

use files::{load, print, run_words, speaking_lines};
use std::io::{self, Write};
use std::process::ExitCode;

const USAGE: &str = "usage: limit CHANGES SCHEMA LANE..";

fn write_line(out: &mut impl Write, number: usize, line: &[u8]) -> io::Result<()> {
    write!(out, "{number} ")?;
    out.write_all(line)?;
    out.write_all(b"\n")
}

fn write_lane(out: &mut impl Write, lane: usize, text: &[u8]) -> io::Result<()> {
    writeln!(out, "lane {lane}")?;
    speaking_lines(text).try_for_each(|(number, line)| write_line(out, number, line))
}

fn write_each(out: &mut impl Write, word: &str, schema: &[u8]) -> io::Result<()> {
    speaking_lines(schema)
        .filter(|(_, line)| line.starts_with(b"index "))
        .try_for_each(|(number, _)| writeln!(out, "{word} {number}"))
}

fn write_changes(out: &mut impl Write, changes: usize, lanes: &[Vec<u8>]) -> io::Result<()> {
    let asked = lanes.iter().flat_map(|text| speaking_lines(text));
    let changing = asked.filter(|(_, line)| !line.starts_with(b"get "));
    let mut changing = changing.take(changes);
    changing.try_for_each(|(number, line)| write_line(out, number, line))
}

fn write_all(
    out: &mut impl Write,
    changes: usize,
    schema: &[u8],
    lanes: &[Vec<u8>],
) -> io::Result<()> {
    writeln!(out, "ahi run")?;
    for (lane, text) in (1..).zip(lanes) {
        write_lane(out, lane, text)?;
    }
    write_each(out, "changes", schema)?;
    write_changes(out, changes, lanes)?;
    write_each(out, "stats", schema)?;
    writeln!(out, "end")
}

fn run(words: &[String]) -> Result<(), String> {
    let [changes, schema, lanes @ ..] = words else {
        return Err(USAGE.into());
    };
    let changes = changes.parse().map_err(|_| USAGE)?;
    let schema = load(schema)?;
    let lanes: Vec<_> = lanes
        .iter()
        .map(|lane| load(lane))
        .collect::<Result<_, _>>()?;
    print(|out| write_all(out, changes, &schema, &lanes))
}

fn main() -> ExitCode {
    run_words("limit", run)
}
