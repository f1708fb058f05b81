#!/bin/sh
# Data frames a second through the core, of four bytes each, with 1 input there and with 1,000, each frame to the next stream, and
# with 1,000 while 60 clients listen to all that is told; and the time of a volume command on a sink of 250 inputs, each of the next
# input, without listeners and with 60. The time that inputs and listeners take to be made is taken off. Usage: bench/core.sh
# [FRAMES]; the best of five runs counts.
set -eu
frames=${1:-1000000}
top=$(cd "$(dirname "$0")/.." && pwd)
work=$(mktemp -d)
trap 'rm -rf "$work"' EXIT
. "$top/bench/times.sh"

build
# frames INPUTS LISTENERS
frames() {
    made=$(least "$bench" core "$1" 1 "$2")
    all=$(least "$bench" core "$1" "$frames" "$2")
    awk -v i="$1" -v l="$2" -v n="$frames" -v a="$made" -v b="$all" 'BEGIN {
        printf "%4d inputs %2d listeners  %.0f data frames a second\n", i, l, n / (b - a) * 1000000000
    }'
}

# volumes LISTENERS COMMANDS
volumes() {
    made=$(least "$bench" volumes 250 1 "$1")
    all=$(least "$bench" volumes 250 "$(($2 + 1))" "$1")
    awk -v l="$1" -v n="$2" -v a="$made" -v b="$all" 'BEGIN {
        printf " 250 inputs %2d listeners  %.1f microseconds a volume\n", l, (b - a) / n / 1000
    }'
}

frames 1 0
frames 1000 0
frames 1000 60
volumes 0 20000
volumes 60 1000
