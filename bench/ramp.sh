#!/bin/sh
# Million instructions of `replay` and of `replay --ramp 1000`, for the same sessions of STREAMS streams and SECONDS of sound, whose volumes stay; and of
# both where the first stream's volume changes at each turn, so that a ramp runs in all of them. Usage: bench/ramp.sh [SECONDS [STREAMS..]].
# It wants python3 and valgrind. PROGRAM is the program, where it isn't the one that was proved.
set -eu
seconds=${1:-2}
[ $# -gt 0 ] && shift
[ $# -gt 0 ] || set -- 1 8 64
top=$(cd "$(dirname "$0")/.." && pwd)
program=${PROGRAM:-$top/crates/pulse_rw/out/pulse_rw}
work=$(mktemp -d)
trap 'rm -rf "$work"' EXIT

# counted FILE WORD..: the million instructions of a run with these words over a file
counted() {
    file=$1
    shift
    valgrind --tool=callgrind --callgrind-out-file=/dev/null "$program" "$@" <"$work/$file" 2>&1 >/dev/null |
        awk '/Collected/ { printf "%.0f", $4 / 1000000 }'
}

for streams; do
    python3 "$top/bench/session_of_streams.py" "$seconds" "$streams" >"$work/stays"
    python3 "$top/bench/session_of_streams.py" "$seconds" "$streams" --volumes >"$work/changes"
    for volumes in stays changes; do
        plain=$(counted "$volumes" replay)
        ramped=$(counted "$volumes" replay --ramp 1000)
        awk -v s="$streams" -v l="$seconds" -v v="$volumes" -v p="$plain" -v r="$ramped" 'BEGIN {
            printf "%3d streams, %d seconds, volume %-7s  replay %6d  --ramp 1000 %6d  to replay %.2f\n", s, l, v, p, r, r / p
        }'
    done
done
