//! What `bench sound` does, in plain Rust: samples of the format whose code the second word says to 32-bit work values, and back
//! where the format is written, as many times as the first word says, and a sum over them.

const SAMPLES: usize = 4096;

fn fill(bytes: &mut [u8], seed: u32) {
    let mut state = seed;
    for byte in bytes.iter_mut() {
        state = state.wrapping_mul(1_664_525).wrapping_add(1_013_904_223);
        *byte = (state >> 24) as u8;
    }
}

fn mu_law(code: u8) -> i32 {
    let plain = !code;
    let size = ((i32::from(plain & 15) << 3) + 132 << ((plain & 0x70) >> 4)) - 132;
    if plain & 0x80 != 0 { -size } else { size }
}

fn a_law(code: u8) -> i32 {
    let plain = code ^ 0x55;
    let step = i32::from(plain & 15) << 4;
    let segment = (plain & 0x70) >> 4;
    let size = if segment == 0 { step + 8 } else { step + 0x108 << (segment - 1) };
    if plain & 0x80 != 0 { size } else { -size }
}

#[inline(always)]
fn read<const SIZE: usize>(bytes: &[u8], values: &mut [i32], one: impl Fn(&[u8; SIZE]) -> i32) {
    for (value, sample) in values.iter_mut().zip(bytes.chunks_exact(SIZE)) {
        *value = one(sample.try_into().unwrap());
    }
}

#[inline(always)]
fn write<const SIZE: usize>(values: &[i32], bytes: &mut [u8], one: impl Fn(i32) -> [u8; SIZE]) {
    for (sample, value) in bytes.chunks_exact_mut(SIZE).zip(values) {
        sample.copy_from_slice(&one(*value));
    }
}

#[inline(never)]
fn unpack(code: u8, bytes: &[u8], values: &mut [i32]) {
    match code {
        0 => read(bytes, values, |[a]| i32::from(*a) - 128),
        1 => read(bytes, values, |[a]| a_law(*a)),
        2 => read(bytes, values, |[a]| mu_law(*a)),
        4 => read(bytes, values, |s| i32::from(i16::from_be_bytes(*s))),
        7 => read(bytes, values, |s| i32::from_le_bytes(*s)),
        8 => read(bytes, values, |s| i32::from_be_bytes(*s)),
        9 => read(bytes, values, |[a, b, c]| i32::from_le_bytes([0, *a, *b, *c])),
        10 => read(bytes, values, |[a, b, c]| i32::from_be_bytes([*a, *b, *c, 0])),
        11 => read(bytes, values, |s| i32::from_le_bytes(*s) << 8),
        12 => read(bytes, values, |s| i32::from_be_bytes(*s) << 8),
        _ => read(bytes, values, |s| i32::from(i16::from_le_bytes(*s))),
    }
}

#[inline(never)]
fn widen(shift: u32, values: &mut [i32]) {
    if shift > 0 {
        values.iter_mut().for_each(|value| *value <<= shift);
    }
}

#[inline(never)]
fn narrow(shift: u32, values: &mut [i32]) {
    if shift > 0 {
        values.iter_mut().for_each(|value| *value >>= shift);
    }
}

#[inline(never)]
fn pack(code: u8, values: &[i32], bytes: &mut [u8]) {
    match code {
        0 => write(values, bytes, |v| [(v + 128) as u8]),
        4 => write(values, bytes, |v| (v as i16).to_be_bytes()),
        7 => write(values, bytes, i32::to_le_bytes),
        8 => write(values, bytes, i32::to_be_bytes),
        9 => write(values, bytes, |v| { let [_, a, b, c] = v.to_le_bytes(); [a, b, c] }),
        10 => write(values, bytes, |v| { let [a, b, c, _] = v.to_be_bytes(); [a, b, c] }),
        11 => write(values, bytes, |v| ((v as u32) >> 8).to_le_bytes()),
        12 => write(values, bytes, |v| ((v as u32) >> 8).to_be_bytes()),
        _ => write(values, bytes, |v| (v as i16).to_le_bytes()),
    }
}

fn main() {
    let mut words = std::env::args().skip(1).map(|word| word.parse().unwrap_or(1));
    let rounds: u32 = words.next().unwrap_or(1);
    let code = words.next().unwrap_or(3) as u8;
    let (size, shift) = match code {
        0 => (1, 24),
        1 | 2 => (1, 16),
        7 | 8 | 11 | 12 => (4, 0),
        9 | 10 => (3, 0),
        _ => (2, 16),
    };
    let mut bytes = vec![0u8; size * SAMPLES];
    let mut values = vec![0i32; SAMPLES];
    fill(&mut bytes, rounds);
    for _ in 0..rounds {
        unpack(code, &bytes, &mut values);
        widen(shift, &mut values);
        if !matches!(code, 1 | 2) {
            narrow(shift, &mut values);
            pack(code, &values, &mut bytes);
        }
    }
    let add = |sum: u32, more: u32| sum.wrapping_mul(31).wrapping_add(more);
    let sum = bytes.iter().fold(0, |sum, byte| add(sum, u32::from(*byte)));
    println!("{}", values.iter().fold(sum, |sum, value| add(sum, *value as u32)));
}
