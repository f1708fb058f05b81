#!/bin/sh
# Whether the program that is there is one of these sources, and that it is.
#
#   tools/built.sh is SUM      status 0 where it was noted as built from sources of this sum, and is the same program still
#   tools/built.sh note SUM    notes that it is built from sources of this sum; `.ci/run` and the launcher do so after a proof
set -eu
program=$(cd "$(dirname "$0")/.." && pwd)/crates/pulse_rw/out/pulse_rw
[ -x "$program" ]
said="$2 $(sha256sum <"$program")"
if [ "$1" = note ]; then
    echo "$said" >"$program.sources"
else
    [ "$(cat "$program.sources" 2>/dev/null)" = "$said" ]
fi
