#!/bin/sh
# Processor seconds of `replay` and of `replay --monitor`, for the same sessions of STREAMS streams and SECONDS of sound, and of the
# latter where a client records what the sink plays; and the most memory that each takes, at SECONDS and at twice as many.
# Usage: bench/monitor.sh [SECONDS [STREAMS..]]; the least of five runs counts, each in turn. It wants python3 and GNU time. PROGRAM is
# the program, where it isn't the one that was proved.
set -eu
seconds=${1:-20}
[ $# -gt 0 ] && shift
[ $# -gt 0 ] || set -- 1 8 64
top=$(cd "$(dirname "$0")/.." && pwd)
program=${PROGRAM:-$top/crates/pulse_rw/out/pulse_rw}
work=$(mktemp -d)
trap 'rm -rf "$work"' EXIT

# once NAME FILE WORD..: the processor seconds of a run with these words over a file, into NAME, and its memory
once() {
    name=$1 file=$2
    shift 2
    /usr/bin/time -f '%U %S %M' -a -o "$work/$name" "$program" "$@" <"$work/$file" >/dev/null
}

least() { awk 'NR == 1 || $1 + $2 < s { s = $1 + $2 } $3 > m { m = $3 } END { printf "%.2f s %6.1f MB", s, m / 1024 }' "$work/$1"; }

for streams; do
    for length in "$seconds" $((seconds * 2)); do
        rm -f "$work"/*
        python3 "$top/bench/session_of_streams.py" "$length" "$streams" >"$work/plain"
        python3 "$top/bench/session_of_streams.py" "$length" "$streams" --record >"$work/recorded"
        for _ in 1 2 3 4 5; do
            once replay plain replay
            once monitor plain replay --monitor
            once record recorded replay --monitor
        done
        echo "$streams streams, $length seconds: replay $(least replay)  --monitor $(least monitor)  with a record stream $(least record)"
    done
done
