//! Plays a recorded session from standard input as `replay` does, for the sessions of bench/session_of_streams.py: the best plain program of the same
//! rules, beside which the proved one is measured. A payload stays where it was read, each frame is mixed once, when nothing can change it any
//! more, and a stream that is alone is copied. What it can't play (another format than its sink's, a volume, a cork) it refuses by a panic.
mod input;
mod mix;
mod packet;
mod sink;
mod stream;
mod world;

use input::{Input, word_at};
use std::fs::File;
use std::io::{self, Write};
use std::os::fd::AsFd;
use world::World;

/// The bytes of output that are written at a time, at least.
const PIECE: usize = 131_072;

fn main() {
    let mut input = Input::new();
    let mut world = World::new(&mut input);
    let mut output = File::from(io::stdout().as_fd().try_clone_to_owned().expect("standard output"));
    let mut out = Vec::with_capacity(2 * PIECE);
    loop {
        match input.next(1)[0] {
            0 => break,
            1 => {
                world.connect(word_at(input.next(5), 1));
                input.skip(5);
            }
            2 => {
                let head = input.next(9);
                let (connection, length) = (word_at(head, 1), word_at(head, 5) as usize);
                world.hear(connection, &mut input, 9, length, &mut out);
                input.skip(9 + length);
            }
            5 => {
                let head = input.next(10);
                let (sink, frames, taken) = (head[1] as usize, word_at(head, 2), word_at(head, 6));
                world.turn(sink, frames, taken, &mut input, &mut out);
                input.skip(10);
            }
            6 => {
                let head = input.next(6);
                let (sink, count) = (head[1] as usize, word_at(head, 2));
                world.collect(sink, count, &mut out);
                input.skip(6);
            }
            kind => panic!("an event of kind {kind} isn't played here"),
        }
        if out.len() >= PIECE {
            output.write_all(&out).expect("write");
            out.clear();
        }
    }
    out.push(0);
    output.write_all(&out).expect("write");
}
