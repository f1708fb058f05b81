//! What `bench frame` does, in plain Rust: frames of 64 KiB decoded from pieces, as many rounds as the first
//! word says and in pieces of as many bytes as the second says.

const FRAMES: usize = 16;
const PAYLOAD: usize = 65_536;
const BLOCK: usize = 65_536;

enum Body {
    Control(Vec<u8>),
    Write { _stream: u32, _offset: i64, _seek: u8, blocks: Vec<Vec<u8>> },
}

struct Frame {
    _at: u64,
    body: Body,
}

#[derive(Default)]
struct Decoder {
    start: u64,
    head: [u8; 20],
    got: usize,
    missing: usize,
    packet: Vec<u8>,
    blocks: Vec<Vec<u8>>,
}

fn word(head: &[u8; 20], at: usize) -> u32 {
    u32::from_be_bytes([head[at], head[at + 1], head[at + 2], head[at + 3]])
}

impl Decoder {
    #[inline(never)]
    fn feed(&mut self, mut piece: &[u8]) -> Result<Vec<Frame>, u64> {
        let mut frames = Vec::new();
        while !piece.is_empty() {
            if self.got < 20 {
                let count = piece.len().min(20 - self.got);
                self.head[self.got..self.got + count].copy_from_slice(&piece[..count]);
                self.got += count;
                piece = &piece[count..];
                if self.got == 20 {
                    let (length, channel, flags) = (word(&self.head, 0), word(&self.head, 4), word(&self.head, 16));
                    if length == 0 || length > 16_777_216 {
                        return Err(self.start);
                    }
                    let broken = if channel == u32::MAX { flags != 0 } else { flags >= 1 << 24 || flags % 256 > 3 };
                    if broken {
                        return Err(self.start + 16);
                    }
                    self.missing = length as usize;
                    if channel == u32::MAX {
                        self.packet = Vec::with_capacity(self.missing);
                    }
                }
                continue;
            }
            let control = word(&self.head, 4) == u32::MAX;
            let count = piece.len().min(self.missing);
            if control {
                self.packet.extend_from_slice(&piece[..count]);
            } else {
                let mut rest = &piece[..count];
                while !rest.is_empty() {
                    if self.blocks.last().is_none_or(|block| block.len() == BLOCK) {
                        self.blocks.push(Vec::with_capacity(BLOCK));
                    }
                    let block = self.blocks.last_mut().unwrap();
                    let some = rest.len().min(BLOCK - block.len());
                    block.extend_from_slice(&rest[..some]);
                    rest = &rest[some..];
                }
            }
            piece = &piece[count..];
            self.missing -= count;
            if self.missing == 0 {
                let body = if control {
                    Body::Control(std::mem::take(&mut self.packet))
                } else {
                    Body::Write {
                        _stream: word(&self.head, 4),
                        _offset: (u64::from(word(&self.head, 8)) << 32 | u64::from(word(&self.head, 12))) as i64,
                        _seek: word(&self.head, 16) as u8,
                        blocks: std::mem::take(&mut self.blocks),
                    }
                };
                frames.push(Frame { _at: self.start + 20, body });
                self.start += 20 + u64::from(word(&self.head, 0));
                self.got = 0;
            }
        }
        Ok(frames)
    }
}

fn main() {
    let mut words = std::env::args().skip(1);
    let rounds: u32 = words.next().and_then(|word| word.parse().ok()).unwrap_or(1);
    let piece: usize = words.next().and_then(|word| word.parse().ok()).unwrap_or(4_096);
    let mut stream = Vec::new();
    for _ in 0..FRAMES {
        for word in [PAYLOAD as u32, 5, 0, 0, 0] {
            stream.extend_from_slice(&word.to_be_bytes());
        }
        stream.extend_from_slice(&vec![7; PAYLOAD]);
    }
    let mut decoder = Decoder::default();
    let (mut count, mut bytes) = (0u64, 0u64);
    for _ in 0..rounds {
        for part in stream.chunks(piece.max(1)) {
            for frame in decoder.feed(part).expect("no fault") {
                count += 1;
                bytes += match frame.body {
                    Body::Control(packet) => packet.len() as u64,
                    Body::Write { blocks, .. } => blocks.iter().map(|block| block.len() as u64).sum(),
                };
            }
        }
    }
    println!("{count} frames, {bytes} bytes");
}
