//! Pages of rows, with the room, the charges and the cut that docs/TREE.md gives.

use crate::script::{Field, Key};
use std::cmp::Ordering;

/// The bytes that a page has for its rows.
const ROOM: usize = 16_252;

/// The most that a pointer is charged.
const POINTER_CHARGE: usize = 785;

/// What stands beside a key: the value on a leaf, and above it the number of a page.
pub enum Body {
    Value(Field),
    Child(usize),
}

pub struct Row {
    pub key: Key,
    pub body: Body,
}

/// The bytes of a field or a value with its length.
fn size(bytes: &Field) -> usize {
    bytes.len() + if bytes.len() > 127 { 2 } else { 1 }
}

impl Row {
    /// What a page is charged for the row: its record, and a byte of the directory.
    pub fn charge(&self) -> usize {
        let beside = match &self.body {
            Body::Value(value) => size(value),
            Body::Child(_) => 4,
        };
        5 + self.key.iter().map(size).sum::<usize>() + beside + 1
    }
}

/// A page. Its rows ascend; above the leaves the first one has a key of empty fields on the first
/// page of its level.
#[derive(Default)]
pub struct Page {
    pub level: usize,
    pub next: Option<usize>,
    load: usize,
    rows: Vec<Row>,
}

impl Page {
    /// A page of that level over one page, whose keys have so many fields.
    pub fn over(child: usize, level: usize, fields: usize) -> Page {
        let mut page = Page {
            level,
            ..Page::default()
        };
        page.insert(Row {
            key: vec![Vec::new(); fields],
            body: Body::Child(child),
        });
        page
    }

    /// Whether it has too little room for what may come to it: on a leaf a row of that charge.
    pub fn is_full(&self, need: usize) -> bool {
        let coming = if self.level == 0 {
            need
        } else {
            POINTER_CHARGE
        };
        self.load + coming > ROOM
    }

    /// The number of the row, or of the one that would be behind it. Unlike the search of a slice
    /// in std it has branches, so the processor reads ahead on the side that it takes for likely.
    fn place_of(&self, key: &Key) -> Result<usize, usize> {
        let (mut low, mut high) = (0, self.rows.len());
        while low < high {
            let middle = low + (high - low) / 2;
            match self.rows[middle].key.cmp(key) {
                Ordering::Less => low = middle + 1,
                Ordering::Greater => high = middle,
                Ordering::Equal => return Ok(middle),
            }
        }
        Err(low)
    }

    pub fn value_of(&self, key: &Key) -> Option<&Field> {
        match &self.rows[self.place_of(key).ok()?].body {
            Body::Value(value) => Some(value),
            Body::Child(_) => None,
        }
    }

    /// The page below in whose range the key is, none on a leaf.
    pub fn child_of(&self, key: &Key) -> Option<usize> {
        if self.level == 0 {
            return None;
        }
        let place = match self.place_of(key) {
            Ok(place) => place,
            Err(behind) => behind.saturating_sub(1),
        };
        match self.rows.get(place)?.body {
            Body::Child(child) => Some(child),
            Body::Value(_) => None,
        }
    }

    /// The first key of all.
    pub fn low(&self) -> &Key {
        &self.rows[0].key
    }

    /// Puts a row in, unless its key is there: whether it did.
    pub fn insert(&mut self, row: Row) -> bool {
        let Err(place) = self.place_of(&row.key) else {
            return false;
        };
        self.load += row.charge();
        self.rows.insert(place, row);
        true
    }

    /// After how many rows the page is cut: where the larger half is lightest, and the first such
    /// cut.
    fn cut(&self) -> usize {
        let mut left = 0;
        let larger_halves = self.rows.iter().map(|row| {
            left += row.charge();
            left.max(self.load - left)
        });
        let best = larger_halves.zip(1..).min();
        best.map_or(0, |(_, count)| count)
    }

    /// Takes the upper half out, which is to be the page of that number.
    pub fn split_off(&mut self, number: usize) -> Page {
        let rows = self.rows.split_off(self.cut());
        let load = rows.iter().map(Row::charge).sum();
        self.load -= load;
        Page {
            level: self.level,
            next: self.next.replace(number),
            load,
            rows,
        }
    }
}
