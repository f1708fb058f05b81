//! The session on standard input, read into segments. A payload isn't copied out of its segment, which is read into again once nobody holds it.
use std::fs::File;
use std::io::{self, Read};
use std::os::fd::AsFd;

/// The bytes of a segment that input is read into, and of one that small writes are gathered in.
const LARGE: usize = 131_072;
pub const SMALL: usize = 8_192;
/// The least room that a read is worth.
const ROOM: usize = 16_384;

/// Where bytes begin.
#[derive(Clone, Copy)]
pub struct Place {
    pub segment: u32,
    pub offset: u32,
}

#[derive(Default)]
pub struct Store {
    segments: Vec<Box<[u8]>>,
    holds: Vec<u32>,
    free_large: Vec<u32>,
    free_small: Vec<u32>,
}

impl Store {
    /// A segment of `size` bytes, held once.
    pub fn take(&mut self, size: usize) -> u32 {
        let free = if size == LARGE { &mut self.free_large } else { &mut self.free_small };
        let segment = free.pop().unwrap_or_else(|| {
            self.segments.push(vec![0; size].into_boxed_slice());
            self.holds.push(0);
            self.holds.len() as u32 - 1
        });
        self.holds[segment as usize] = 1;
        segment
    }

    #[inline]
    pub fn hold(&mut self, segment: u32) {
        self.holds[segment as usize] += 1;
    }

    #[inline]
    pub fn release(&mut self, segment: u32) {
        let holds = &mut self.holds[segment as usize];
        *holds -= 1;
        if *holds == 0 {
            let is_large = self.segments[segment as usize].len() == LARGE;
            if is_large { self.free_large.push(segment) } else { self.free_small.push(segment) }
        }
    }

    pub fn bytes(&self, place: Place, length: usize) -> &[u8] {
        &self.segments[place.segment as usize][place.offset as usize..][..length]
    }

    /// Copies `length` bytes from one segment to another.
    #[inline]
    pub fn copy(&mut self, from: Place, to: Place, length: usize) {
        let [from_segment, to_segment] =
            self.segments.get_disjoint_mut([from.segment as usize, to.segment as usize]).expect("two segments");
        to_segment[to.offset as usize..][..length].copy_from_slice(&from_segment[from.offset as usize..][..length]);
    }
}

pub struct Input {
    file: File,
    pub store: Store,
    pub segment: u32,
    at: usize,
    filled: usize,
}

impl Input {
    pub fn new() -> Self {
        let file = File::from(io::stdin().as_fd().try_clone_to_owned().expect("standard input"));
        let mut store = Store::default();
        let segment = store.take(LARGE);
        Input { file, store, segment, at: 0, filled: 0 }
    }

    /// The next `count` bytes, whole in one segment.
    #[inline(always)]
    pub fn next(&mut self, count: usize) -> &[u8] {
        if self.filled - self.at < count {
            self.read_more(count);
        }
        &self.store.segments[self.segment as usize][self.at..self.at + count]
    }

    /// The place `after` bytes further on.
    pub fn place(&self, after: usize) -> Place {
        Place { segment: self.segment, offset: (self.at + after) as u32 }
    }

    #[inline]
    pub fn skip(&mut self, count: usize) {
        self.at += count;
    }

    /// Takes `count` bytes as a copy.
    pub fn take(&mut self, count: usize) -> Vec<u8> {
        let taken = self.next(count).to_vec();
        self.skip(count);
        taken
    }

    pub fn take_byte(&mut self) -> u8 {
        self.take(1)[0]
    }

    pub fn take_word(&mut self) -> u32 {
        let word = word_at(self.next(4), 0);
        self.skip(4);
        word
    }

    #[cold]
    fn read_more(&mut self, count: usize) {
        assert!(count <= LARGE, "an event of {count} bytes isn't played here");
        if self.at + count > LARGE || LARGE - self.filled < ROOM {
            let next = self.store.take(LARGE);
            self.store.copy(self.place(0), Place { segment: next, offset: 0 }, self.filled - self.at);
            self.store.release(self.segment);
            (self.segment, self.filled, self.at) = (next, self.filled - self.at, 0);
        }
        while self.filled - self.at < count {
            let read = self.file.read(&mut self.store.segments[self.segment as usize][self.filled..]).expect("read");
            assert!(read > 0, "truncated");
            self.filled += read;
        }
    }
}

/// The number of four bytes at an offset.
#[inline]
pub fn word_at(bytes: &[u8], at: usize) -> u32 {
    u32::from_be_bytes(*bytes[at..].first_chunk().expect("four bytes"))
}
