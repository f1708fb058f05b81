#!/bin/sh
# Millions of samples a second that are added to sums, clipped and taken away again: the proved loops of px_kernel, and plain Rust built
# for the same processor level. Usage: bench/mix.sh [ROUNDS], at 4,096 samples a round, each three times; the best of five runs counts.
set -eu
rounds=${1:-100000}
top=$(cd "$(dirname "$0")/.." && pwd)
work=$(mktemp -d)
trap 'rm -rf "$work"' EXIT
. "$top/bench/times.sh"

for format in s16le=3 s32le=7; do
    compare mix "${format%=*}" "$((rounds * 12288 / 1000000))" "million samples" "$rounds" "${format#*=}"
done
