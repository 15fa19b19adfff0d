//! The report, in the form that docs/FORMATS.md gives.

use crate::answers::{Answer, Change, Said};
use crate::script::{Field, Key, Line, Operation, Script, Shape};
use std::io::{self, Write};

/// What the statistics say behind the number of `cold`, where every answer says `cold no`: that no
/// search went by a hash, and no leaf was hashed.
const BEHIND_COLD: &str = "short 0 part-busy 0 no-entry 0 block-busy 0 clock 0 unequal 0 \
    by-clock 0 by-busy 0 by-moved 0 by-last 0 built 0 same 0 arena 0 raced 0 worn 0";

/// Writes the whole report of lanes that are done.
pub fn write_report(
    out: &mut impl Write,
    script: &Script,
    answers: &[Vec<Answer>],
    changes: &[Vec<Change>],
) -> io::Result<()> {
    writeln!(out, "ahi run")?;
    for (lane, (lines, answers)) in (1..).zip(script.lanes.iter().zip(answers)) {
        write_lane(out, lane, lines, answers)?;
    }
    for (shape, changes) in script.shapes.iter().zip(changes) {
        write_changes(out, shape, changes)?;
    }
    for (index, shape) in script.shapes.iter().enumerate() {
        write_statistics(out, shape, count_answers(script, index))?;
    }
    writeln!(out, "end")
}

/// How many answers an index gave: one to each line.
fn count_answers(script: &Script, index: usize) -> usize {
    let lines = script.lanes.iter().flatten();
    lines.filter(|line| line.index == index).count()
}

fn write_statistics(out: &mut impl Write, shape: &Shape, answers: usize) -> io::Result<()> {
    let name = String::from_utf8_lossy(&shape.name);
    writeln!(out, "stats {name} hit 0 off 0 cold {answers} {BEHIND_COLD}")
}

fn write_field(out: &mut impl Write, field: &[u8]) -> io::Result<()> {
    if field.is_empty() {
        return out.write_all(b"~");
    }
    for &byte in field {
        match byte {
            b'%' | b',' => write!(out, "%{byte:02x}")?,
            b'!'..=b'}' => out.write_all(&[byte])?,
            _ => write!(out, "%{byte:02x}")?,
        }
    }
    Ok(())
}

fn write_key(out: &mut impl Write, key: &Key) -> io::Result<()> {
    for (place, field) in key.iter().enumerate() {
        out.write_all(if place == 0 { b" " } else { b"," })?;
        write_field(out, field)?;
    }
    Ok(())
}

fn write_answer(out: &mut impl Write, number: usize, answer: &Answer) -> io::Result<()> {
    let point = answer.point;
    match &answer.said {
        Said::Ok => writeln!(out, "{number} ok @{point} cold no"),
        Said::Duplicate => writeln!(out, "{number} duplicate @{point} cold no"),
        Said::Absent => writeln!(out, "{number} absent @{point} cold no"),
        Said::LogFull => writeln!(out, "{number} log-full {point} cold no"),
        Said::Row(key, value) => {
            write!(out, "{number} found")?;
            write_key(out, key)?;
            out.write_all(b" ")?;
            write_field(out, value)?;
            writeln!(out, " @{point} cold no")
        }
        Said::Found(value) => {
            write!(out, "{number} found ")?;
            write_field(out, value)?;
            writeln!(out, " @{point} cold no")
        }
    }
}

fn write_change(out: &mut impl Write, number: usize, change: &Change) -> io::Result<()> {
    write!(out, "{number} {} {} ", change.lane, change.line.number)?;
    match &change.line.operation {
        Operation::Put(key, value) => write_row(out, "put", key, value)?,
        Operation::Set(key, value) => write_row(out, "set", key, value)?,
        Operation::Get(key) | Operation::Del(key) | Operation::Seek(_, key) => {
            out.write_all(b"del")?;
            write_key(out, key)?;
        }
    }
    writeln!(out)
}

fn write_row(out: &mut impl Write, verb: &str, key: &Key, value: &Field) -> io::Result<()> {
    out.write_all(verb.as_bytes())?;
    write_key(out, key)?;
    out.write_all(b" ")?;
    write_field(out, value)
}

fn write_lane(
    out: &mut impl Write,
    lane: usize,
    lines: &[Line],
    answers: &[Answer],
) -> io::Result<()> {
    writeln!(out, "lane {lane}")?;
    let mut both = lines.iter().zip(answers);
    both.try_for_each(|(line, answer)| write_answer(out, line.number, answer))
}

fn write_changes(out: &mut impl Write, shape: &Shape, changes: &[Change]) -> io::Result<()> {
    let name = String::from_utf8_lossy(&shape.name);
    writeln!(out, "changes {name} {}", changes.len())?;
    (1..)
        .zip(changes)
        .try_for_each(|(number, change)| write_change(out, number, change))
}
