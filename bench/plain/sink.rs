//! A sink: a turn plays, applies messages, goes on and asks for more. A frame is mixed once, when no later message can change it.
use crate::input::{Place, Store};
use crate::mix::{mix_16, mix_32};
use crate::stream::Stream;
use std::collections::VecDeque;

/// What a sink is sent; streams are named by the index of their input.
pub enum Message {
    Join(u32),
    Leave(u32),
    Factors,
    Write { input: u32, place: Place, frames: u32 },
}

/// What a sink says of an input.
pub enum Notice {
    Started(u32),
    Underflow(u32),
    Request(u32, u64),
    Left(u32),
}

pub struct Spec {
    pub format: u8,
    pub channels: u8,
    pub rate: u32,
    pub map: Vec<u8>,
}

impl Spec {
    /// The bytes of a frame.
    pub fn frame(&self) -> usize {
        self.channels as usize * if self.format == 3 { 2 } else { 4 }
    }
}

/// Where the frames of a stream lie that are mixed now: in a segment, or laid out from an offset on.
enum Source {
    Segment(Place),
    Laid(usize),
}

pub struct Sink {
    pub name: Vec<u8>,
    pub spec: Spec,
    pub depth: u64,
    guard: u64,
    frame: usize,
    consumed: u64,
    filled: u64,
    horizon: u64,
    /// The inputs that are there, in rising index.
    inputs: Vec<u32>,
    pub messages: VecDeque<Message>,
    pub notices: VecDeque<Notice>,
    /// The frames from `consumed` to `horizon`, after `gone` bytes that were played.
    mixed: Vec<u8>,
    gone: usize,
    sources: Vec<Source>,
    laid: Vec<u8>,
    sums_16: Vec<i32>,
    sums_32: Vec<i64>,
}

impl Sink {
    pub fn new(name: Vec<u8>, spec: Spec, guard: u64, depth: u64) -> Self {
        assert!(spec.format == 3 || spec.format == 7, "a format that isn't played here");
        Sink {
            name,
            frame: spec.frame(),
            spec,
            depth,
            guard,
            consumed: 0,
            filled: 0,
            horizon: 0,
            inputs: Vec::new(),
            messages: VecDeque::new(),
            notices: VecDeque::new(),
            mixed: Vec::new(),
            gone: 0,
            sources: Vec::new(),
            laid: Vec::new(),
            sums_16: Vec::new(),
            sums_32: Vec::new(),
        }
    }

    /// A turn that plays `frames` frames into `out` and applies `taken` messages.
    pub fn turn(&mut self, frames: u64, taken: usize, streams: &mut [Stream], store: &mut Store, out: &mut Vec<u8>) {
        self.consumed += frames;
        assert!(self.consumed <= self.filled, "too many frames");
        let horizon = self.filled.min(self.consumed + self.guard);
        if horizon > self.horizon {
            self.settle(horizon - self.horizon, streams, store);
            self.horizon = horizon;
        }
        let length = frames as usize * self.frame;
        out.extend_from_slice(&self.mixed[self.gone..self.gone + length]);
        self.gone += length;
        let ahead = self.filled - self.horizon;
        for _ in 0..taken {
            let message = self.messages.pop_front().expect("too many messages");
            self.apply(message, ahead, streams, store);
        }
        self.filled = self.consumed + self.depth;
        let ahead = self.filled - self.horizon;
        for input in &self.inputs {
            if let Some(frames) = streams[*input as usize].ask(ahead) {
                self.notices.push_back(Notice::Request(*input, frames));
            }
        }
    }

    /// Mixes the `frames` frames from the horizon on, which no message can change any more, and takes the streams past them.
    fn settle(&mut self, frames: u64, streams: &mut [Stream], store: &mut Store) {
        self.sources.clear();
        self.laid.clear();
        for input in &self.inputs {
            let stream = &mut streams[*input as usize];
            let given = stream.given(frames);
            if let Some(place) = stream.in_a_row(frames) {
                self.sources.push(Source::Segment(place));
            } else if given > 0 {
                self.sources.push(Source::Laid(self.laid.len()));
                stream.lay_out(frames, store, &mut self.laid);
            }
            stream.advance(frames, store);
            let was_quiet = std::mem::replace(&mut stream.is_quiet, given < frames);
            if was_quiet && given > 0 {
                self.notices.push_back(Notice::Started(*input));
            }
            if stream.is_quiet && (given > 0 || !was_quiet) {
                self.notices.push_back(Notice::Underflow(*input));
            }
        }
        self.mix(frames as usize * self.frame, store);
    }

    /// Mixes `length` bytes of the sources. The segments that the streams have let go of aren't read into before that.
    fn mix(&mut self, length: usize, store: &Store) {
        if self.gone == self.mixed.len() || self.gone >= 65_536 {
            self.mixed.drain(..self.gone);
            self.gone = 0;
        }
        let sounds: Vec<&[u8]> = self
            .sources
            .iter()
            .map(|source| match source {
                Source::Segment(place) => store.bytes(*place, length),
                Source::Laid(from) => &self.laid[*from..*from + length],
            })
            .collect();
        if let [sound] = sounds[..] {
            return self.mixed.extend_from_slice(sound);
        }
        let start = self.mixed.len();
        self.mixed.resize(start + length, 0);
        match self.spec.format {
            3 => mix_16(&sounds, &mut self.sums_16, &mut self.mixed[start..]),
            _ => mix_32(&sounds, &mut self.sums_32, &mut self.mixed[start..]),
        }
    }

    fn apply(&mut self, message: Message, ahead: u64, streams: &mut [Stream], store: &mut Store) {
        match message {
            Message::Write { input, place, frames } => streams[input as usize].apply(place, frames as u64, ahead, store),
            Message::Join(input) => {
                let at = self.inputs.partition_point(|it| *it < input);
                self.inputs.insert(at, input);
            }
            Message::Leave(input) => {
                self.inputs.retain(|it| *it != input);
                self.notices.push_back(Notice::Left(input));
            }
            Message::Factors => {}
        }
    }
}
