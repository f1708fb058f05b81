//! What `bench mix` does, in plain Rust: values added to sums, the sums clipped, and the values taken away again, as many times as the first
//! word says, with the values of S16LE or, where the second word is 7, of S32LE; and a sum over what was clipped last.

const SAMPLES: usize = 4096;

fn fill(bytes: &mut [u8], seed: u32) {
    let mut state = seed;
    for byte in bytes.iter_mut() {
        state = state.wrapping_mul(1_664_525).wrapping_add(1_013_904_223);
        *byte = (state >> 24) as u8;
    }
}

#[inline(never)]
fn add_scaled(sums: &mut [i64], values: &[i32], factor: u32) {
    for (sum, value) in sums.iter_mut().zip(values) {
        *sum += (i64::from(*value) * i64::from(factor)) >> 16;
    }
}

#[inline(never)]
fn sub_scaled(sums: &mut [i64], values: &[i32], factor: u32) {
    for (sum, value) in sums.iter_mut().zip(values) {
        *sum -= (i64::from(*value) * i64::from(factor)) >> 16;
    }
}

#[inline(never)]
fn clip(sums: &[i64], low: i64, high: i64, out: &mut [i32]) {
    for (value, sum) in out.iter_mut().zip(sums) {
        *value = (*sum).clamp(low, high) as i32;
    }
}

fn main() {
    let mut words = std::env::args().skip(1).map(|word| word.parse().unwrap_or(1));
    let rounds: u32 = words.next().unwrap_or(1);
    let wide = words.next() == Some(7);
    let mut bytes = vec![0u8; if wide { 4 } else { 2 } * SAMPLES];
    fill(&mut bytes, rounds);
    let values: Vec<i32> = if wide {
        bytes.chunks_exact(4).map(|s| i32::from_le_bytes(s.try_into().unwrap())).collect()
    } else {
        bytes.chunks_exact(2).map(|s| i32::from(i16::from_le_bytes(s.try_into().unwrap()))).collect()
    };
    let (low, high) = if wide {
        (i64::from(i32::MIN), i64::from(i32::MAX))
    } else {
        (i64::from(i16::MIN), i64::from(i16::MAX))
    };
    let mut sums = vec![0i64; SAMPLES];
    let mut out = vec![0i32; SAMPLES];
    for number in 0..rounds {
        let factor = 60_000 + number % 10_000;
        add_scaled(&mut sums, &values, factor);
        clip(&sums, low, high, &mut out);
        sub_scaled(&mut sums, &values, factor);
    }
    println!("{}", out.iter().fold(0u32, |sum, value| sum.wrapping_mul(31).wrapping_add(*value as u32)));
}
