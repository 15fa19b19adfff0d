//! A plain program that answers the same files: `peer SCHEMA LANE..`.
//!
//! Each index is a `BTreeMap` under a `Mutex`, each lane a thread. Its report has the form of
//! `ahi run`; for one lane it has the same bytes.

mod answers;
mod files;
mod maps;
mod report;
mod script;

use answers::Answer;
use maps::{Index, into_changes, new_indexes};
use report::write_report;
use script::{Line, Script};
use std::process::ExitCode;
use std::sync::Mutex;
use std::thread;

/// Works each lane on a thread of its own and gives its answers.
fn work_all<'a>(indexes: &[Mutex<Index<'a>>], lanes: &'a [Vec<Line>]) -> Vec<Vec<Answer>> {
    let work_line = |lane, line: &'a Line| indexes[line.index].lock().unwrap().work(lane, line);
    let work_lane =
        |lane, lines: &'a [Line]| lines.iter().map(|line| work_line(lane, line)).collect();
    thread::scope(|scope| {
        let start = |(lane, lines)| scope.spawn(move || work_lane(lane, lines));
        let threads: Vec<_> = (1..)
            .zip(lanes.iter().map(Vec::as_slice))
            .map(start)
            .collect();
        threads
            .into_iter()
            .map(|thread| thread.join().unwrap())
            .collect()
    })
}

/// Works all lanes, then writes the report.
fn run(words: &[String]) -> Result<(), String> {
    let [schema, lanes @ ..] = words else {
        return Err("usage: peer SCHEMA LANE..".into());
    };
    let script = Script::load(schema, lanes)?;
    let indexes = new_indexes(&script);
    let answers = work_all(&indexes, &script.lanes);
    let changes = into_changes(indexes);
    files::print(|out| write_report(out, &script, &answers, &changes))
}

fn main() -> ExitCode {
    files::run_words("peer", run)
}
