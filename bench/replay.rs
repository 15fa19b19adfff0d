//! Works the lines of some lanes one after another, in the order that the points of a report give:
//! `replay REPORT SCHEMA LANE..`.
//!
//! It prints the report of plain maps that are worked so. That of a legal report has its very bytes,
//! and no other's has.

mod answers;
mod files;
mod maps;
mod report;
mod script;

use answers::Answer;
use maps::{into_changes, new_indexes};
use report::write_report;
use script::Script;
use std::process::ExitCode;

/// Where an answer stands in the order of its index. A change comes before what was said after it.
#[derive(PartialEq, Eq, PartialOrd, Ord)]
struct Turn {
    index: usize,
    point: usize,
    is_reply: bool,
    lane: usize,
    place: usize,
}

/// The second word of an answer, and its point.
fn read_answer(text: &str) -> Option<(&str, usize)> {
    let verb = text.split(' ').nth(1)?;
    let point = text.rsplit(' ').nth(2)?;
    let point = point.strip_prefix('@').unwrap_or(point).parse().ok()?;
    Some((verb, point))
}

fn read_lane<'a>(
    texts: &mut impl Iterator<Item = &'a str>,
    script: &Script,
    lane: usize,
) -> Option<Vec<Turn>> {
    texts.next()?.strip_prefix("lane ")?;
    let mut read_turn = |place: usize| {
        let (verb, point) = read_answer(texts.next()?)?;
        Some(Turn {
            index: script.lanes[lane][place].index,
            point,
            is_reply: verb != "ok",
            lane,
            place,
        })
    };
    (0..script.lanes[lane].len()).map(&mut read_turn).collect()
}

fn read_turns(report: &str, script: &Script) -> Option<Vec<Turn>> {
    let mut texts = report.lines();
    texts.next()?;
    let mut turns = Vec::new();
    for lane in 0..script.lanes.len() {
        turns.extend(read_lane(&mut texts, script, lane)?);
    }
    Some(turns)
}

/// The lines of a lane that ask one index come in their order.
fn keeps_lanes(turns: &[Turn], lanes: usize) -> bool {
    let mut least = vec![(0, 0); lanes];
    turns.iter().all(|turn| {
        let before = least[turn.lane];
        least[turn.lane] = (turn.index, turn.place);
        before <= least[turn.lane]
    })
}

/// Works the lines by these turns, and gives the answers of each lane.
fn work_turns(
    turns: &[Turn],
    script: &Script,
    mut work: impl FnMut(&Turn) -> Answer,
) -> Vec<Vec<Answer>> {
    let mut worked: Vec<_> = turns.iter().map(|turn| (turn, work(turn))).collect();
    worked.sort_by_key(|(turn, _)| (turn.lane, turn.place));
    let mut worked = worked.into_iter().map(|(_, answer)| answer);
    let take = |lines: &Vec<_>| worked.by_ref().take(lines.len()).collect();
    script.lanes.iter().map(take).collect()
}

fn run(words: &[String]) -> Result<(), String> {
    let [report, schema, lanes @ ..] = words else {
        return Err("usage: replay REPORT SCHEMA LANE..".into());
    };
    let script = Script::load(schema, lanes)?;
    let report = String::from_utf8(files::load(report)?).map_err(|error| error.to_string())?;
    let mut turns = read_turns(&report, &script).ok_or("not a report of these lanes")?;
    turns.sort();
    if !keeps_lanes(&turns, script.lanes.len()) {
        return Err("points fall along a lane".into());
    }
    let indexes = new_indexes(&script);
    let answers = work_turns(&turns, &script, |turn| {
        let line = &script.lanes[turn.lane][turn.place];
        indexes[turn.index]
            .lock()
            .unwrap()
            .work(turn.lane + 1, line)
    });
    let changes = into_changes(indexes);
    files::print(|out| write_report(out, &script, &answers, &changes))
}

fn main() -> ExitCode {
    files::run_words("replay", run)
}
