//! A stream: its attributes, its indices in frames, and where its frames lie.
use crate::input::{Place, Store, SMALL};
use crate::sink::Message;
use std::collections::VecDeque;

/// Writes of fewer bytes are gathered, so that they lie in a row.
const GATHERED: usize = 512;

/// Frames in a row, from an index on, that are held.
struct Chunk {
    from: u64,
    frames: u64,
    place: Place,
}

/// The lengths that a stream has asked for, in frames.
#[derive(Clone, Copy)]
pub struct Lengths {
    pub max: u64,
    pub target: u64,
    pub least_request: u64,
}

pub struct Stream {
    pub connection: u32,
    pub channel: u32,
    pub sink: usize,
    /// The sink that it is on its way to, and what that will be sent.
    pub moving: Option<usize>,
    pub delayed: Vec<Message>,
    pub frame: usize,
    pub lengths: Lengths,
    pub read: u64,
    pub write: u64,
    pub requested: u64,
    pub is_quiet: bool,
    chunks: VecDeque<Chunk>,
    /// The segment in which small writes are gathered, and the bytes of it that are used.
    gathering: Option<(u32, usize)>,
}

impl Stream {
    pub fn new(connection: u32, channel: u32, sink: usize, frame: usize, lengths: Lengths) -> Self {
        Stream {
            connection,
            channel,
            sink,
            moving: None,
            delayed: Vec::new(),
            frame,
            lengths,
            read: 0,
            write: 0,
            requested: lengths.target,
            is_quiet: true,
            chunks: VecDeque::new(),
            gathering: None,
        }
    }

    /// Holds a payload: where it lies, or, where it is small, after the ones before it. Its place from then on.
    #[inline]
    pub fn keep(&mut self, place: Place, length: usize, store: &mut Store) -> Place {
        if length >= GATHERED {
            store.hold(place.segment);
            return place;
        }
        let (segment, used) = match self.gathering {
            Some((segment, used)) if used + length <= SMALL => (segment, used),
            before => {
                if let Some((segment, _)) = before {
                    store.release(segment);
                }
                (store.take(SMALL), 0)
            }
        };
        let kept = Place { segment, offset: used as u32 };
        store.copy(place, kept, length);
        store.hold(segment);
        self.gathering = Some((segment, used + length));
        kept
    }

    /// A write of frames that are held.
    #[inline]
    pub fn apply(&mut self, place: Place, frames: u64, ahead: u64, store: &mut Store) {
        let from = self.write;
        self.write += frames;
        self.requested = self.requested.saturating_sub(frames);
        assert!(self.write <= self.read + ahead + self.lengths.max, "an overflow isn't played here");
        if self.write <= self.read {
            return store.release(place.segment);
        }
        if let Some(last) = self.chunks.back_mut() {
            let end = last.place.offset as usize + last.frames as usize * self.frame;
            if last.place.segment == place.segment && end == place.offset as usize && last.from + last.frames == from {
                last.frames += frames;
                return store.release(place.segment);
            }
        }
        self.chunks.push_back(Chunk { from, frames, place });
    }

    /// Where the next `frames` frames lie in a row; `None` where they don't.
    #[inline]
    pub fn in_a_row(&self, frames: u64) -> Option<Place> {
        let chunk = self.chunks.front()?;
        let is_whole = chunk.from <= self.read && self.read + frames <= chunk.from + chunk.frames;
        let after = self.read.wrapping_sub(chunk.from) as u32 * self.frame as u32;
        is_whole.then_some(Place { segment: chunk.place.segment, offset: chunk.place.offset.wrapping_add(after) })
    }

    /// Appends the next `frames` frames to `out`, silence where none lie.
    pub fn lay_out(&self, frames: u64, store: &Store, out: &mut Vec<u8>) {
        let (start, to) = (out.len(), self.read + frames);
        out.resize(start + frames as usize * self.frame, 0);
        for chunk in self.chunks.iter().take_while(|it| it.from < to) {
            let (first, last) = (chunk.from.max(self.read), to.min(chunk.from + chunk.frames));
            let place = Place { offset: chunk.place.offset + (first - chunk.from) as u32 * self.frame as u32, ..chunk.place };
            let length = (last - first) as usize * self.frame;
            out[start + (first - self.read) as usize * self.frame..][..length].copy_from_slice(store.bytes(place, length));
        }
    }

    /// The frames that it gives of the next `frames`.
    pub fn given(&self, frames: u64) -> u64 {
        self.write.saturating_sub(self.read).min(frames)
    }

    /// Goes on by `frames` frames, and lets go of them.
    #[inline]
    pub fn advance(&mut self, frames: u64, store: &mut Store) {
        self.read += frames;
        while let Some(chunk) = self.chunks.front() {
            if chunk.from + chunk.frames > self.read {
                break;
            }
            store.release(chunk.place.segment);
            self.chunks.pop_front();
        }
    }

    /// The frames to ask for where `ahead` frames are mixed, if they are enough to ask; they are then requested.
    #[inline]
    pub fn ask(&mut self, ahead: u64) -> Option<u64> {
        let there = self.write.saturating_sub(self.read + ahead);
        let missing = self.lengths.target.saturating_sub(there).saturating_sub(self.requested);
        if missing < self.lengths.least_request {
            return None;
        }
        self.requested += missing;
        Some(missing)
    }
}
