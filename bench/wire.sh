#!/bin/sh
# Commands read and replies written a second, one of each a round: CREATE_PLAYBACK_STREAM with 9 properties and the reply to it.
# The proved code of px_cmd and px_reply, and plain Rust built for the same processor level.
# Usage: bench/wire.sh [ROUNDS]; the best of five runs counts.
set -eu
rounds=${1:-400000}
top=$(cd "$(dirname "$0")/.." && pwd)
work=$(mktemp -d)
trap 'rm -rf "$work"' EXIT
input="$top/crates/bench/stdin"
. "$top/bench/times.sh"

compare wire "px_cmd, px_reply" "$rounds" rounds "$rounds"
