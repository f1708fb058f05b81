//! The server of a session: its connections, streams and sinks, and what its commands and notices do.
use crate::input::{Input, word_at};
use crate::packet::{Fields, put_duration, put_number, put_text, record, record_numbers};
use crate::sink::{Message, Notice, Sink, Spec};
use crate::stream::{Lengths, Stream};

const REPLY: u32 = 2;
/// No index, or the tag of what answers nothing.
const NONE: u32 = u32::MAX;
/// The greatest number of a connection that is played here.
const CONNECTIONS: usize = 65_536;

pub struct World {
    pub sinks: Vec<Sink>,
    /// By the index of their input.
    streams: Vec<Stream>,
    /// The inputs of each connection's streams, by its number.
    connections: Vec<Vec<u32>>,
}

impl World {
    /// The sinks of the header.
    pub fn new(input: &mut Input) -> Self {
        assert_eq!(input.take(4), b"PRS1", "a form that isn't played here");
        input.take(256);
        let sinks = (0..input.take_byte()).map(|_| {
            let length = input.take_byte() as usize;
            let name = input.take(length);
            let (format, channels, rate) = (input.take_byte(), input.take_byte(), input.take_word());
            let map = input.take(channels as usize);
            let (guard, depth) = (input.take_word() as u64, input.take_word() as u64);
            Sink::new(name, Spec { format, channels, rate, map }, guard, depth)
        });
        World { sinks: sinks.collect(), streams: Vec::new(), connections: Vec::new() }
    }

    pub fn connect(&mut self, connection: u32) {
        let number = connection as usize;
        assert!(number < CONNECTIONS, "a connection's number that isn't played here");
        if number >= self.connections.len() {
            self.connections.resize_with(number + 1, Vec::new);
        }
    }

    /// The bytes of an event, `length` from `after` the next byte of the input on: whole frames, a descriptor and a payload each.
    #[inline]
    pub fn hear(&mut self, connection: u32, input: &mut Input, after: usize, length: usize, out: &mut Vec<u8>) {
        let end = after + length;
        let mut at = after;
        while at < end {
            let head = &input.next(end)[at..];
            let (length, channel) = (word_at(head, 0) as usize, word_at(head, 4));
            assert!(at + 20 + length <= end, "a frame in two events isn't played here");
            if channel != NONE {
                assert_eq!(head[8..20], [0; 12], "a write that isn't played here");
                self.write(connection, channel, input, at + 20, length);
            } else {
                let packet = head[20..20 + length].to_vec();
                self.packet(connection, &packet, out);
            }
            at += 20 + length;
        }
    }

    #[inline]
    fn write(&mut self, connection: u32, channel: u32, input: &mut Input, after: usize, length: usize) {
        let number = self.connections[connection as usize][channel as usize];
        let stream = &mut self.streams[number as usize];
        // a division of 32 bits takes half as long as one of 64
        let (frames, left) = (length as u32 / stream.frame as u32, length as u32 % stream.frame as u32);
        assert_eq!(left, 0, "a write that isn't played here");
        let place = stream.keep(input.place(after), length, &mut input.store);
        let message = Message::Write { input: number, place, frames };
        match stream.moving {
            Some(_) => stream.delayed.push(message),
            None => self.sinks[stream.sink].messages.push_back(message),
        }
    }

    fn packet(&mut self, connection: u32, packet: &[u8], out: &mut Vec<u8>) {
        let mut fields = Fields::new(packet);
        let (command, tag) = (fields.number(), fields.number());
        match command {
            8 => record_numbers(out, connection, [REPLY, tag, 18]),
            3 => self.create(connection, tag, fields, out),
            67 => {
                let number = fields.number();
                let sink = self.sink_called(fields.number(), fields.text());
                let stream = &mut self.streams[number as usize];
                assert!(stream.moving.is_none(), "a move that isn't played here");
                if sink != stream.sink {
                    self.sinks[stream.sink].messages.push_back(Message::Leave(number));
                    stream.moving = Some(sink);
                }
                record_numbers(out, connection, [REPLY, tag]);
            }
            _ => panic!("a command that isn't played here"),
        }
    }

    /// The sink of an index or a name; the first where neither is said.
    fn sink_called(&self, index: u32, name: Option<&[u8]>) -> usize {
        match name {
            Some(name) => self.sinks.iter().position(|sink| sink.name == name).expect("a sink"),
            None if index == NONE => 0,
            None => index as usize,
        }
    }

    /// A new stream, of its sink's format, rate and map.
    fn create(&mut self, connection: u32, tag: u32, mut fields: Fields, out: &mut Vec<u8>) {
        let ((format, channels, rate), map) = (fields.spec(), fields.map());
        let index = fields.number();
        let place = self.sink_called(index, fields.text());
        let sink = &mut self.sinks[place];
        let is_alike = (format, channels, rate, map) == (sink.spec.format, sink.spec.channels, sink.spec.rate, &sink.spec.map[..]);
        let frame = sink.spec.frame() as u32;
        let whole = |bytes: u32| (bytes / frame * frame).max(frame);
        let max = whole(fields.number().min(4_194_304));
        let is_corked = fields.flag();
        let [target, prebuf, least, _] = [(); 4].map(|()| fields.number());
        assert!(is_alike && !is_corked && prebuf == 0 && fields.is_full_volume(), "a stream that isn't played here");
        let target = if target == NONE { whole(2 * rate * frame) } else { whole(target) }.min(max);
        let least = if least == NONE { whole(rate * 20 / 1_000 * frame) } else { whole(least) }.min(target);
        let [max_frames, target_frames, least_frames] = [max, target, least].map(|bytes| (bytes / frame) as u64);
        let lengths = Lengths { max: max_frames, target: target_frames, least_request: least_frames };

        let (number, channel) = (self.streams.len() as u32, self.connections[connection as usize].len() as u32);
        self.streams.push(Stream::new(connection, channel, place, frame as usize, lengths));
        self.connections[connection as usize].push(number);
        sink.messages.extend([Message::Join(number), Message::Factors]);
        record(out, connection, |out| {
            [REPLY, tag, channel, number, target, max, target, 0, least].into_iter().for_each(|it| put_number(out, it));
            out.extend_from_slice(&[b'a', format, channels]);
            out.extend_from_slice(&rate.to_be_bytes());
            out.extend_from_slice(&[b'm', channels]);
            out.extend_from_slice(map);
            put_number(out, place as u32);
            put_text(out, &sink.name);
            out.push(b'0');
            put_duration(out, sink.depth, rate);
        });
    }

    /// The first `count` notices of a sink.
    pub fn collect(&mut self, place: usize, count: u32, out: &mut Vec<u8>) {
        for _ in 0..count {
            let (number, command, frames) = match self.sinks[place].notices.pop_front().expect("too many notices") {
                Notice::Left(number) => {
                    self.arrive(number, out);
                    continue;
                }
                Notice::Request(number, frames) => (number, 61, Some(frames)),
                Notice::Underflow(number) => (number, 63, None),
                Notice::Started(number) => (number, 86, None),
            };
            let stream = &self.streams[number as usize];
            match frames {
                Some(frames) => {
                    let bytes = frames as u32 * stream.frame as u32;
                    record_numbers(out, stream.connection, [command, NONE, stream.channel, bytes]);
                }
                None => record_numbers(out, stream.connection, [command, NONE, stream.channel]),
            }
        }
    }

    /// The sink that a stream was on has let go of it, and it comes to the next one.
    fn arrive(&mut self, number: u32, out: &mut Vec<u8>) {
        let stream = &mut self.streams[number as usize];
        let place = stream.moving.take().expect("a stream that moves");
        let before = std::mem::replace(&mut stream.sink, place);
        self.sinks[place].messages.push_back(Message::Join(number));
        self.sinks[before].messages.push_back(Message::Factors);
        let sink = &mut self.sinks[place];
        assert_eq!(stream.frame, sink.spec.frame(), "a move that isn't played here");
        sink.messages.push_back(Message::Factors);
        sink.messages.extend(stream.delayed.drain(..));
        let lengths = [stream.lengths.max, stream.lengths.target, 0, stream.lengths.least_request];
        record(out, stream.connection, |out| {
            [78, NONE, stream.channel, place as u32].into_iter().for_each(|it| put_number(out, it));
            put_text(out, &sink.name);
            out.push(b'0');
            lengths.into_iter().for_each(|it| put_number(out, it as u32 * stream.frame as u32));
            put_duration(out, sink.depth, sink.spec.rate);
        });
    }

    /// A turn of a sink, and the record of what it played.
    pub fn turn(&mut self, place: usize, frames: u32, taken: u32, input: &mut Input, out: &mut Vec<u8>) {
        let sink = &mut self.sinks[place];
        if frames > 0 {
            out.extend_from_slice(&[3, place as u8]);
            out.extend_from_slice(&frames.to_be_bytes());
        }
        sink.turn(frames as u64, taken as usize, &mut self.streams, &mut input.store, out);
    }
}
