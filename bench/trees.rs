//! Trees whose pages are in the frames of one cache: docs/TREE.md says how they grow. Page `i` is
//! the root of index `i` for good.

use crate::frames::Frames;
use crate::pages::{Body, Page, Row};
use crate::script::{Field, Key};
use std::mem;

pub struct Trees {
    pub frames: Frames,
}

impl Trees {
    /// An empty tree for each index, and no page in a frame yet.
    pub fn new(indexes: usize, frames: usize) -> Trees {
        Trees {
            frames: Frames::new(frames, indexes),
        }
    }

    pub fn get(&mut self, index: usize, key: &Key) -> Option<&Field> {
        let leaf = self.descend(index, key);
        self.frames.page(leaf).value_of(key)
    }

    /// Puts a row in, unless its key is there: whether it did.
    pub fn put(&mut self, index: usize, row: Row) -> bool {
        let need = row.charge();
        loop {
            let leaf = self.descend(index, &row.key);
            let page = self.frames.page_mut(leaf);
            if !page.is_full(need) {
                return page.insert(row);
            }
            if page.value_of(&row.key).is_some() {
                return false;
            }
            self.make_room(index, &row.key, need);
        }
    }

    /// The frame of the leaf that the key belongs to.
    fn descend(&mut self, index: usize, key: &Key) -> usize {
        let mut frame = self.frames.hold(index);
        while let Some(child) = self.frames.page(frame).child_of(key) {
            frame = self.frames.hold(child);
        }
        frame
    }

    /// Splits what is too full on the way down, so that the leaf of the key has room.
    fn make_room(&mut self, index: usize, key: &Key, need: usize) {
        let root = self.frames.hold(index);
        let mut frame = root;
        if self.frames.page(root).is_full(need) {
            let below = self.raise(root, key.len());
            frame = self.split(root, below, key);
        }
        while let Some(child) = self.frames.page(frame).child_of(key) {
            let below = self.frames.hold(child);
            frame = if self.frames.page(below).is_full(need) {
                self.split(frame, below, key)
            } else {
                below
            };
        }
    }

    /// Moves all rows of a root to a new page under it: the frame of that.
    fn raise(&mut self, root: usize, fields: usize) -> usize {
        let (number, below) = self.frames.add();
        let page = self.frames.page_mut(root);
        let top = Page::over(number, page.level + 1, fields);
        *self.frames.page_mut(below) = mem::replace(self.frames.page_mut(root), top);
        below
    }

    /// Cuts a page in two, and gives its parent a pointer: the frame of the half that has the key.
    fn split(&mut self, parent: usize, left: usize, key: &Key) -> usize {
        if let Some(next) = self.frames.page(left).next {
            // pages that are linked both ways would have another left neighbour here
            self.frames.hold(next);
        }
        let (number, right) = self.frames.add();
        let half = self.frames.page_mut(left).split_off(number);
        let low = half.low().clone();
        let is_left = *key < low;
        *self.frames.page_mut(right) = half;
        self.frames.page_mut(parent).insert(Row {
            key: low,
            body: Body::Child(number),
        });
        if is_left { left } else { right }
    }
}
