//! The loops that mix. Each sample of a stream is read once, and each of the mix clipped once; they are plain, so that the compiler
//! makes vectors of them.

/// The samples that are mixed at a time, whose sums stay near the processor.
const BLOCK: usize = 1_024;
/// The most streams that one pass over the sums adds.
const GROUP: usize = 8;

macro_rules! mixer {
    ($name:ident, $sample:ty, $sum:ty, $size:literal) => {
        /// Mixes streams, each of as many bytes as `out` has, into it: their sums, clipped. `sums` is room for them.
        pub fn $name(streams: &[&[u8]], sums: &mut Vec<$sum>, out: &mut [u8]) {
            /// Adds samples of `STREAMS` streams from byte `from` on to the sums; the first pass sets these, the last clips them into `out`.
            fn pass<const STREAMS: usize>(sums: &mut [$sum], streams: &[&[u8]], from: usize, is_first: bool, out: Option<&mut [u8]>) {
                let count = sums.len();
                let streams: [&[[u8; $size]]; STREAMS] = std::array::from_fn(|at| &streams[at][from..].as_chunks().0[..count]);
                let added = |at: usize, so_far: $sum| streams.iter().fold(so_far, |sum, it| sum + <$sample>::from_le_bytes(it[at]) as $sum);
                let clipped = |sum: $sum| (sum.clamp(<$sample>::MIN as $sum, <$sample>::MAX as $sum) as $sample).to_le_bytes();
                let out = out.map(|out| &mut out.as_chunks_mut::<$size>().0[..count]);
                match (is_first, out) {
                    (true, None) => (0..count).for_each(|at| sums[at] = added(at, 0)),
                    (false, None) => (0..count).for_each(|at| sums[at] = added(at, sums[at])),
                    (true, Some(out)) => (0..count).for_each(|at| out[at] = clipped(added(at, 0))),
                    (false, Some(out)) => (0..count).for_each(|at| out[at] = clipped(added(at, sums[at]))),
                }
            }

            const PASSES: [fn(&mut [$sum], &[&[u8]], usize, bool, Option<&mut [u8]>); GROUP] =
                [pass::<1>, pass::<2>, pass::<3>, pass::<4>, pass::<5>, pass::<6>, pass::<7>, pass::<8>];

            sums.resize(BLOCK, 0);
            for (block, out) in out.chunks_mut(BLOCK * $size).enumerate() {
                let sums = &mut sums[..out.len() / $size];
                for (group, members) in streams.chunks(GROUP).enumerate() {
                    let is_last = (group + 1) * GROUP >= streams.len();
                    let out = is_last.then_some(&mut *out);
                    PASSES[members.len() - 1](sums, members, block * BLOCK * $size, group == 0, out);
                }
            }
        }
    };
}

mixer!(mix_16, i16, i32, 2);
mixer!(mix_32, i32, i64, 4);
