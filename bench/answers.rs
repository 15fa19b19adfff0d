//! What a line is told, and the changes that an index has had.

use crate::script::{Field, Key, Line};

/// How many changes an index takes.
pub const MAX_CHANGES: usize = 1_000_000;

pub enum Said {
    Ok,
    Duplicate,
    Absent,
    Found(Field),
    Row(Key, Field),
    LogFull,
}

/// What was said, and how many changes its index had had by then.
pub struct Answer {
    pub said: Said,
    pub point: usize,
}

/// A line that was told `Ok`, and the number of its lane.
pub struct Change<'a> {
    pub lane: usize,
    pub line: &'a Line,
}
