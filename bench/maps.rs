//! The maps of some indexes, and what they are asked.

use crate::answers::{Answer, Change, MAX_CHANGES, Said};
use crate::script::{Field, Key, Line, Mode, Operation, Script};
use std::collections::BTreeMap;
use std::collections::btree_map::Entry;
use std::sync::Mutex;

#[derive(Default)]
pub struct Index<'a> {
    rows: BTreeMap<Key, Field>,
    changes: Vec<Change<'a>>,
}

impl<'a> Index<'a> {
    /// Answers a line, and notes what it changes. Lanes are numbered from 1.
    pub fn work(&mut self, lane: usize, line: &'a Line) -> Answer {
        let has_room = self.changes.len() < MAX_CHANGES;
        let said = match &line.operation {
            Operation::Get(key) => match self.rows.get(key) {
                Some(value) => Said::Found(value.clone()),
                None => Said::Absent,
            },
            Operation::Put(key, value) => match self.rows.entry(key.clone()) {
                Entry::Occupied(_) => Said::Duplicate,
                Entry::Vacant(place) if has_room => {
                    place.insert(value.clone());
                    Said::Ok
                }
                Entry::Vacant(_) => Said::LogFull,
            },
            Operation::Set(key, value) => match self.rows.get_mut(key) {
                Some(held) if has_room => {
                    held.clone_from(value);
                    Said::Ok
                }
                Some(_) => Said::LogFull,
                None => Said::Absent,
            },
            Operation::Del(key) if has_room => match self.rows.remove(key) {
                Some(_) => Said::Ok,
                None => Said::Absent,
            },
            Operation::Del(key) if self.rows.contains_key(key) => Said::LogFull,
            Operation::Del(_) => Said::Absent,
            Operation::Seek(mode, tuple) => match seek(&self.rows, *mode, tuple) {
                Some((key, value)) => Said::Row(key.clone(), value.clone()),
                None => Said::Absent,
            },
        };
        if matches!(said, Said::Ok) {
            self.changes.push(Change { lane, line });
        }
        Answer {
            said,
            point: self.changes.len(),
        }
    }
}

/// The row that a seek asks for. A tuple equals each key that it begins, and comes before them as a
/// list of fields.
fn seek<'a>(
    rows: &'a BTreeMap<Key, Field>,
    mode: Mode,
    tuple: &Key,
) -> Option<(&'a Key, &'a Field)> {
    let below = || rows.range::<Key, _>(..tuple);
    let mut others = rows.range(tuple.clone()..);
    let is_equal = |row: &(&Key, &Field)| row.0.starts_with(tuple);
    match mode {
        Mode::Ge => others.next(),
        Mode::G => others.find(|row| !is_equal(row)),
        Mode::Le => others
            .take_while(is_equal)
            .last()
            .or_else(|| below().next_back()),
        Mode::L => below().next_back(),
    }
}

/// An empty index for each of the schema.
pub fn new_indexes<'a>(script: &Script) -> Vec<Mutex<Index<'a>>> {
    script.shapes.iter().map(|_| Mutex::default()).collect()
}

/// The changes that each index has had.
pub fn into_changes<'a>(indexes: Vec<Mutex<Index<'a>>>) -> Vec<Vec<Change<'a>>> {
    let changes = |index: Mutex<Index<'a>>| index.into_inner().unwrap().changes;
    indexes.into_iter().map(changes).collect()
}
