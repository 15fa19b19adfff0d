//! Pages in so many frames, and an image of each page that is in none. The frame whose last access
//! is longest ago makes room.

use crate::pages::Page;
use std::mem;

/// What stands around a frame in the order of last accesses.
struct Link {
    older: usize,
    newer: usize,
}

/// A frame's page, and its number.
#[derive(Default)]
struct Frame {
    page: Page,
    number: Option<usize>,
}

pub struct Frames {
    frames: Vec<Frame>,
    /// One for each frame, and a last one, which stands between the newest and the oldest.
    links: Vec<Link>,
    /// The frame of each page that is in one, by the numbers of pages.
    places: Vec<Option<usize>>,
    /// The images, by the numbers of pages. That of a page in a frame is empty.
    images: Vec<Page>,
    pub accesses: usize,
    /// How many pages went to their images.
    pub evictions: usize,
}

impl Frames {
    /// So many empty frames, the first of which is the oldest, and so many empty pages as images.
    pub fn new(frames: usize, pages: usize) -> Frames {
        let around = frames + 1;
        let link = |frame| Link {
            older: (frame + frames) % around,
            newer: (frame + 1) % around,
        };
        Frames {
            frames: (0..frames).map(|_| Frame::default()).collect(),
            links: (0..around).map(link).collect(),
            places: vec![None; pages],
            images: (0..pages).map(|_| Page::default()).collect(),
            accesses: 0,
            evictions: 0,
        }
    }

    pub fn page_count(&self) -> usize {
        self.places.len()
    }

    pub fn page(&self, frame: usize) -> &Page {
        &self.frames[frame].page
    }

    pub fn page_mut(&mut self, frame: usize) -> &mut Page {
        &mut self.frames[frame].page
    }

    /// An access to a page: the frame that has it. It stays there while fewer other pages are
    /// accessed than there are frames.
    pub fn hold(&mut self, number: usize) -> usize {
        let frame = match self.places[number] {
            Some(frame) => frame,
            None => self.restore(number),
        };
        self.accesses += 1;
        self.renew(frame);
        frame
    }

    /// An empty page, which has the next number, and its frame.
    pub fn add(&mut self) -> (usize, usize) {
        let number = self.places.len();
        self.places.push(None);
        self.images.push(Page::default());
        (number, self.hold(number))
    }

    /// The page comes from its image to the oldest frame.
    fn restore(&mut self, number: usize) -> usize {
        let frame = self.links[self.frames.len()].newer;
        if let Some(other) = self.frames[frame].number.replace(number) {
            self.evictions += 1;
            self.places[other] = None;
            mem::swap(&mut self.images[other], &mut self.frames[frame].page);
        }
        self.places[number] = Some(frame);
        mem::swap(&mut self.images[number], &mut self.frames[frame].page);
        frame
    }

    /// The frame is the newest.
    fn renew(&mut self, frame: usize) {
        let Link { older, newer } = self.links[frame];
        self.join(older, newer);
        let end = self.frames.len();
        let newest = self.links[end].older;
        self.join(newest, frame);
        self.join(frame, end);
    }

    fn join(&mut self, older: usize, newer: usize) {
        self.links[older].newer = newer;
        self.links[newer].older = older;
    }
}
