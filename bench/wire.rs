// Plain Rust that reads a CREATE_PLAYBACK_STREAM of version 13 into owned fields, and writes the reply to one.
use std::collections::HashMap;
use std::io::Read;

struct Items<'a> {
    rest: &'a [u8],
}

impl<'a> Items<'a> {
    fn take(&mut self, n: usize) -> Option<&'a [u8]> {
        let (front, rest) = self.rest.split_at_checked(n)?;
        self.rest = rest;
        Some(front)
    }

    fn tag(&mut self, wanted: u8) -> Option<()> {
        (self.take(1)?[0] == wanted).then_some(())
    }

    fn word(&mut self) -> Option<u32> {
        Some(u32::from_be_bytes(self.take(4)?.try_into().ok()?))
    }

    fn number(&mut self) -> Option<u32> {
        self.tag(b'L')?;
        self.word()
    }

    fn text(&mut self) -> Option<Option<&'a [u8]>> {
        match self.take(1)?[0] {
            b'N' => Some(None),
            b't' => {
                let end = self.rest.iter().position(|b| *b == 0)?;
                let text = self.take(end)?;
                self.take(1)?;
                Some(Some(text))
            }
            _ => None,
        }
    }

    fn flag(&mut self) -> Option<bool> {
        match self.take(1)?[0] {
            b'1' => Some(true),
            b'0' => Some(false),
            _ => None,
        }
    }
}

#[allow(dead_code)]
struct Create {
    spec: (u8, u8, u32),
    map: Vec<u8>,
    sink: u32,
    name: Option<Vec<u8>>,
    asked: [u32; 4],
    volume: Vec<u32>,
    flags: [bool; 10],
    places: HashMap<Vec<u8>, usize>,
    list: Vec<(Vec<u8>, Vec<u8>)>,
}

fn read(packet: &[u8]) -> Option<Create> {
    let mut items = Items { rest: packet };
    if items.number()? != 3 {
        return None;
    }
    items.number()?;
    items.tag(b'a')?;
    let front = items.take(2)?;
    let spec = (front[0], front[1], items.word()?);
    items.tag(b'm')?;
    let count = items.take(1)?[0] as usize;
    let map = items.take(count)?.to_vec();
    let sink = items.number()?;
    let name = items.text()?.map(|t| t.to_vec());
    let mut flags = [false; 10];
    let mut asked = [0; 4];
    asked[0] = items.number()?;
    flags[0] = items.flag()?;
    for place in &mut asked[1..] {
        *place = items.number()?;
    }
    items.number()?;
    items.tag(b'v')?;
    let count = items.take(1)?[0] as usize;
    let mut volume = Vec::with_capacity(count);
    for _ in 0..count {
        volume.push(items.word()?);
    }
    for flag in &mut flags[1..] {
        *flag = items.flag()?;
    }
    items.tag(b'P')?;
    let mut list: Vec<(Vec<u8>, Vec<u8>)> = Vec::new();
    let mut places = HashMap::new();
    while let Some(key) = items.text()? {
        let length = items.number()?;
        items.tag(b'x')?;
        if items.word()? != length {
            return None;
        }
        let value = items.take(length as usize)?.to_vec();
        match places.get(key) {
            Some(at) => list[*at as usize].1 = value,
            None => {
                places.insert(key.to_vec(), list.len());
                list.push((key.to_vec(), value));
            }
        }
    }
    items.rest.is_empty().then_some(Create { spec, map, sink, name, asked, volume, flags, places, list })
}

fn put(out: &mut Vec<u8>, n: u32) {
    out.push(b'L');
    out.extend_from_slice(&n.to_be_bytes());
}

fn reply(tag: u32, name: &[u8]) -> Vec<u8> {
    let mut out = Vec::new();
    for n in [2, tag, 0, 0, 192_000, 4_194_304, 192_000, 190_082, 1_920] {
        put(&mut out, n);
    }
    out.extend_from_slice(b"a\x03\x02");
    out.extend_from_slice(&44_100u32.to_be_bytes());
    out.extend_from_slice(b"m\x02\x01\x02");
    put(&mut out, 0);
    out.push(b't');
    out.extend_from_slice(name);
    out.push(0);
    out.push(b'0');
    out.push(b'U');
    out.extend_from_slice(&2_083u64.to_be_bytes());
    out
}

fn main() {
    let rounds: u32 = std::env::args().nth(1).and_then(|w| w.parse().ok()).unwrap_or(1);
    let mut packet = Vec::new();
    std::io::stdin().read_to_end(&mut packet).unwrap();
    let mut found = 0u64;
    for _ in 0..rounds {
        if std::hint::black_box(read(&packet)).is_some() {
            found += 1;
        }
    }
    let mut bytes = 0u64;
    for tag in 0..rounds {
        bytes += std::hint::black_box(reply(tag, b"out")).len() as u64;
    }
    println!("{found} commands, {bytes} bytes of replies");
}
