#!/bin/sh
# MB decoded a second for frames of 64 KiB in pieces of 4 KiB: the proved code of px_frame, and plain Rust built for the same
# processor level. Usage: bench/frame.sh [ROUNDS [PIECE]], at 1 MiB a round; the best of five runs counts.
set -eu
rounds=${1:-4000}
piece=${2:-4096}
top=$(cd "$(dirname "$0")/.." && pwd)
work=$(mktemp -d)
trap 'rm -rf "$work"' EXIT
. "$top/bench/times.sh"

compare frame px_frame "$((rounds * 1048576 / 1000000))" MB "$rounds" "$piece"
