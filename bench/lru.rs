//! A plain program with as many frames as the schema has `blocks`: `lru SCHEMA LANE..`.
//!
//! Each index is a tree of pages like those of `ahi run`, and all are in one cache, from which the
//! page goes whose last access is longest ago. Lanes are threads, and one `Mutex` is round it all.
//! It answers gets and puts alone. Its report has the form of `ahi run`, and the standard error says
//! how often a page went to its image.

// seeks are of the other programs
#[allow(dead_code)]
mod answers;
mod files;
mod frames;
mod pages;
mod report;
#[allow(dead_code)]
mod script;
mod trees;

use answers::{Answer, Change, MAX_CHANGES, Said};
use files::{load, speaking_lines};
use pages::{Body, Row};
use report::write_report;
use script::{Field, Key, Line, Operation, Script};
use std::process::ExitCode;
use std::sync::Mutex;
use std::thread;
use trees::Trees;

/// The frames of a run whose schema says nothing of them.
const BLOCKS: usize = 256;

/// All indexes, and what each of them was told.
struct Store<'a> {
    trees: Trees,
    changes: Vec<Vec<Change<'a>>>,
}

impl<'a> Store<'a> {
    fn new(indexes: usize, blocks: usize) -> Store<'a> {
        Store {
            trees: Trees::new(indexes, blocks),
            changes: (0..indexes).map(|_| Vec::new()).collect(),
        }
    }

    /// Answers a line, and notes what it changes. Lanes are numbered from 1.
    fn work(&mut self, lane: usize, line: &'a Line) -> Answer {
        let said = match &line.operation {
            Operation::Get(key) => match self.trees.get(line.index, key) {
                Some(value) => Said::Found(value.clone()),
                None => Said::Absent,
            },
            Operation::Put(key, value) => self.put(line.index, key, value),
            _ => unreachable!("lines were looked at before"),
        };
        let changes = &mut self.changes[line.index];
        if matches!(said, Said::Ok) {
            changes.push(Change { lane, line });
        }
        let point = changes.len();
        Answer { said, point }
    }

    fn put(&mut self, index: usize, key: &Key, value: &Field) -> Said {
        if self.changes[index].len() == MAX_CHANGES {
            return match self.trees.get(index, key) {
                Some(_) => Said::Duplicate,
                None => Said::LogFull,
            };
        }
        let row = Row {
            key: key.clone(),
            body: Body::Value(value.clone()),
        };
        match self.trees.put(index, row) {
            true => Said::Ok,
            false => Said::Duplicate,
        }
    }
}

/// How many frames a schema asks for.
fn blocks_of(schema: &str) -> Result<usize, String> {
    let text = load(schema)?;
    let mut numbers = speaking_lines(&text).filter_map(|(_, line)| line.strip_prefix(b"blocks "));
    let Some(number) = numbers.next() else {
        return Ok(BLOCKS);
    };
    let number = String::from_utf8_lossy(number).parse();
    let least = |blocks: &usize| *blocks >= 16;
    number
        .ok()
        .filter(least)
        .ok_or("blocks is to be a number from 16 on".into())
}

/// Works each lane on a thread of its own and gives its answers.
fn work_all<'a>(store: &Mutex<Store<'a>>, lanes: &'a [Vec<Line>]) -> Vec<Vec<Answer>> {
    let work_lane = |lane, lines: &'a [Line]| {
        let work_line = |line| store.lock().unwrap().work(lane, line);
        lines.iter().map(work_line).collect()
    };
    thread::scope(|scope| {
        let start = |(lane, lines)| scope.spawn(move || work_lane(lane, lines));
        let lanes = (1..).zip(lanes.iter().map(Vec::as_slice));
        let threads: Vec<_> = lanes.map(start).collect();
        let ends = threads.into_iter().map(|thread| thread.join().unwrap());
        ends.collect()
    })
}

fn is_answered(line: &Line) -> bool {
    matches!(line.operation, Operation::Get(_) | Operation::Put(..))
}

fn run(words: &[String]) -> Result<(), String> {
    let [schema, lanes @ ..] = words else {
        return Err("usage: lru SCHEMA LANE..".into());
    };
    let script = Script::load(schema, lanes)?;
    if !script.lanes.iter().flatten().all(is_answered) {
        return Err("only gets and puts are answered".into());
    }
    let store = Store::new(script.shapes.len(), blocks_of(schema)?);
    let store = Mutex::new(store);
    let answers = work_all(&store, &script.lanes);
    let Store { trees, changes } = store.into_inner().unwrap();
    files::print(|out| write_report(out, &script, &answers, &changes))?;
    let frames = &trees.frames;
    eprintln!("{} pages", frames.page_count());
    eprintln!("{} accesses", frames.accesses);
    eprintln!("{} evictions", frames.evictions);
    Ok(())
}

fn main() -> ExitCode {
    files::run_words("lru", run)
}
