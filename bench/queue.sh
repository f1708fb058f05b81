#!/bin/sh
# Seconds of sound a second that a queue takes in and gives out in turns of 480 frames of four bytes: writes of 64 KiB, of 480 frames
# and of one frame, with two seconds that wait and with a hundredth: the proved code of px_queue, and plain Rust built for the same
# processor level. Usage: bench/queue.sh [TURNS]; the best of five runs counts.
set -eu
turns=${1:-20000}
top=$(cd "$(dirname "$0")/.." && pwd)
work=$(mktemp -d)
trap 'rm -rf "$work"' EXIT
. "$top/bench/times.sh"

for frames in 16384 480 1; do
    for waiting in 480 96000; do
        some=$turns
        if [ "$frames" = 1 ]; then some=$((turns / 20)); fi
        compare queue "$frames, $waiting wait" "$((some / 100))" seconds "$some" "$frames" "$waiting"
    done
done
