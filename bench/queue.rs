//! What `bench queue` does, in plain Rust: turns of 480 frames of four bytes out of the writes that wait, as many turns as the first
//! word says, with writes of as many frames as the second says until as many wait as the third says.

use std::collections::VecDeque;

const BLOCK: usize = 65_536;
const TURN: usize = 480;
const FRAME: usize = 4;

// The writes that wait, oldest first, with how many bytes of the first were read.
#[derive(Default)]
struct Queue {
    writes: VecDeque<Vec<u8>>,
    read: usize,
    held: usize,
}

impl Queue {
    // A block of its own for each write, fitted to its bytes.
    #[inline(never)]
    fn push(&mut self, bytes: &[u8]) {
        let mut block = Vec::with_capacity(BLOCK);
        block.extend_from_slice(bytes);
        block.shrink_to_fit();
        self.held += block.len();
        self.writes.push_back(block);
    }

    #[inline(never)]
    fn peek(&self, out: &mut [u8]) -> usize {
        let (mut filled, mut from) = (0, self.read);
        for write in &self.writes {
            if filled == out.len() {
                break;
            }
            let count = (write.len() - from).min(out.len() - filled);
            out[filled..filled + count].copy_from_slice(&write[from..from + count]);
            filled += count;
            from = 0;
        }
        filled
    }

    #[inline(never)]
    fn settle(&mut self, bytes: usize) {
        let mut left = bytes.min(self.held);
        self.held -= left;
        while let Some(write) = self.writes.front() {
            let count = (write.len() - self.read).min(left);
            self.read += count;
            left -= count;
            if self.read < write.len() {
                break;
            }
            self.writes.pop_front();
            self.read = 0;
        }
    }
}

fn main() {
    let mut words = std::env::args().skip(1);
    let mut word = |other: u32| words.next().and_then(|word| word.parse().ok()).unwrap_or(other);
    let (turns, frames, waiting) = (word(1), word(480).min(16_384) as usize, word(96_000) as usize);
    let sound: Vec<u8> = (0..66_048u32).map(|place| (place % 251) as u8).collect();
    let mut queue = Queue::default();
    let mut out = [0; TURN * FRAME];
    let (mut writes, mut sum) = (0u32, 0u64);
    for _ in 0..turns {
        while queue.held < waiting * FRAME {
            let from = (writes % 256) as usize;
            queue.push(&sound[from..from + frames * FRAME]);
            writes = writes.wrapping_add(1);
        }
        if queue.peek(&mut out) > 0 {
            sum = out.iter().fold(sum, |sum, byte| sum.wrapping_add(u64::from(*byte)));
        }
        queue.settle(out.len());
    }
    println!("{writes} writes, {sum} in all");
}
