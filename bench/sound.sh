#!/bin/sh
# Millions of samples a second from each format to 32-bit work values, and back where the format is written: the proved code of
# px_sample, and plain Rust built for the same processor level. Usage: bench/sound.sh [ROUNDS], at 4,096 samples a round; the best of
# five runs counts.
set -eu
rounds=${1:-100000}
top=$(cd "$(dirname "$0")/.." && pwd)
work=$(mktemp -d)
trap 'rm -rf "$work"' EXIT
. "$top/bench/times.sh"

for format in u8=0 alaw=1 ulaw=2 s16le=3 s16be=4 s32le=7 s32be=8 s24le=9 s24be=10 s24_32le=11 s24_32be=12; do
    compare sound "${format%=*}" "$((rounds * 4096 / 1000000))" "million samples" "$rounds" "${format#*=}"
done
