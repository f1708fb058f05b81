// A plain reader of sessions: a buffer of 64 KiB over any Read, and an event's bytes copied into a vector of their own.
use std::io::{Cursor, Read, Result};

struct Reader<R: Read> {
    inner: R,
    buffer: Vec<u8>,
    at: usize,
    filled: usize,
}

enum Step {
    Bytes(Vec<u8>),
    Other,
    End,
}

impl<R: Read> Reader<R> {
    fn new(inner: R) -> Self {
        Reader { inner, buffer: vec![0; 65_536], at: 0, filled: 0 }
    }

    fn take(&mut self, out: &mut [u8]) -> Result<()> {
        let mut done = 0;
        while done < out.len() {
            if self.at == self.filled {
                self.filled = self.inner.read(&mut self.buffer)?;
                self.at = 0;
                if self.filled == 0 {
                    return Err(std::io::ErrorKind::UnexpectedEof.into());
                }
            }
            let n = (out.len() - done).min(self.filled - self.at);
            out[done..done + n].copy_from_slice(&self.buffer[self.at..self.at + n]);
            self.at += n;
            done += n;
        }
        Ok(())
    }

    fn word(&mut self) -> Result<u32> {
        let mut bytes = [0; 4];
        self.take(&mut bytes)?;
        Ok(u32::from_be_bytes(bytes))
    }

    fn next(&mut self) -> Result<Step> {
        let mut kind = [0];
        self.take(&mut kind)?;
        match kind[0] {
            0 => Ok(Step::End),
            2 => {
                self.word()?;
                let mut bytes = vec![0; self.word()? as usize];
                self.take(&mut bytes)?;
                Ok(Step::Bytes(bytes))
            }
            _ => {
                self.word()?;
                Ok(Step::Other)
            }
        }
    }
}

fn session(events: u32) -> Vec<u8> {
    let payload = vec![7u8; 65_536];
    let mut bytes = b"PRS1".to_vec();
    bytes.extend_from_slice(&[0; 256]);
    bytes.extend_from_slice(b"\x01\x03out\x03\x01\x00\x00\xbb\x80\x00\x00\x00\x00\x0a\x00\x00\x00\x64");
    bytes.extend_from_slice(b"\x01\x00\x00\x00\x01");
    for _ in 0..events {
        bytes.extend_from_slice(b"\x02\x00\x00\x00\x01\x00\x01\x00\x00");
        bytes.extend_from_slice(&payload);
    }
    bytes.push(0);
    bytes
}

fn main() -> Result<()> {
    let events = std::env::args().nth(1).and_then(|word| word.parse().ok()).unwrap_or(1);
    let mut reader = Reader::new(Cursor::new(session(events)));
    let mut header = [0; 280];
    reader.take(&mut header)?;
    let (mut count, mut bytes) = (0u64, 0u64);
    loop {
        match reader.next()? {
            Step::Bytes(payload) => {
                count += 1;
                bytes += payload.len() as u64;
            }
            Step::Other => count += 1,
            Step::End => break,
        }
    }
    println!("{count} events, {bytes} bytes");
    Ok(())
}
