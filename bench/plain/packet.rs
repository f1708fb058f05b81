//! The fields of packets, and packets in their frames.
use crate::input::word_at;

/// A packet's fields, read one after the other. What isn't there is a panic.
pub struct Fields<'a> {
    bytes: &'a [u8],
}

impl<'a> Fields<'a> {
    pub fn new(bytes: &'a [u8]) -> Self {
        Fields { bytes }
    }

    fn take(&mut self, count: usize) -> &'a [u8] {
        let (taken, left) = self.bytes.split_at(count);
        self.bytes = left;
        taken
    }

    fn tag(&mut self, tag: u8) {
        assert_eq!(self.take(1), [tag], "a field that isn't played here");
    }

    pub fn number(&mut self) -> u32 {
        self.tag(b'L');
        word_at(self.take(4), 0)
    }

    pub fn flag(&mut self) -> bool {
        self.take(1) == b"1"
    }

    pub fn text(&mut self) -> Option<&'a [u8]> {
        if self.take(1) == b"N" {
            return None;
        }
        let end = self.bytes.iter().position(|byte| *byte == 0).expect("a text's end");
        let text = self.take(end);
        self.take(1);
        Some(text)
    }

    /// The format, the channels and the rate.
    pub fn spec(&mut self) -> (u8, u8, u32) {
        self.tag(b'a');
        let spec = self.take(6);
        (spec[0], spec[1], word_at(spec, 2))
    }

    pub fn map(&mut self) -> &'a [u8] {
        self.tag(b'm');
        let channels = self.take(1)[0];
        self.take(channels as usize)
    }

    /// Whether all channels are at full volume.
    pub fn is_full_volume(&mut self) -> bool {
        self.tag(b'v');
        let channels = self.take(1)[0] as usize;
        self.take(4 * channels).chunks(4).all(|volume| word_at(volume, 0) == 65_536)
    }
}

pub fn put_number(out: &mut Vec<u8>, number: u32) {
    let [a, b, c, d] = number.to_be_bytes();
    out.extend_from_slice(&[b'L', a, b, c, d]);
}

pub fn put_text(out: &mut Vec<u8>, text: &[u8]) {
    out.push(b't');
    out.extend_from_slice(text);
    out.push(0);
}

/// The time that `frames` frames last, in microseconds.
pub fn put_duration(out: &mut Vec<u8>, frames: u64, rate: u32) {
    out.push(b'U');
    out.extend_from_slice(&(frames * 1_000_000 / rate as u64).to_be_bytes());
}

/// The record of a packet that is sent to a connection; `put` appends its fields.
#[inline]
pub fn record(out: &mut Vec<u8>, connection: u32, put: impl FnOnce(&mut Vec<u8>)) {
    let start = out.len();
    let mut head = [0; 29];
    head[0] = 1;
    head[1..5].copy_from_slice(&connection.to_be_bytes());
    head[13..17].fill(0xFF);
    out.extend_from_slice(&head);
    put(out);
    let length = (out.len() - start - head.len()) as u32;
    out[start + 5..start + 9].copy_from_slice(&(length + 20).to_be_bytes());
    out[start + 9..start + 13].copy_from_slice(&length.to_be_bytes());
}

/// The record of a packet of numbers.
#[inline]
pub fn record_numbers<const COUNT: usize>(out: &mut Vec<u8>, connection: u32, numbers: [u32; COUNT]) {
    record(out, connection, |out| numbers.into_iter().for_each(|number| put_number(out, number)));
}
