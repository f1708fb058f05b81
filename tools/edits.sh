#!/bin/bash
# Tries the edits that the prover must refuse: those of the gate, crates/NAME/must-fail/*.edit, and the others,
# crates/NAME/edits/*.edit. Each crate is tried in a clone of the last commit, which is removed at the end, over what
# checks on this machine kept. Its status is 0 where each edit is refused.
#
#   tools/edits.sh [NAME..]           tries them, of the crates NAME or of all; a line for each says by what it was refused
#   tools/edits.sh --look [NAME..]    tries none: tells those whose file isn't there, or whose old text isn't there just once
set -eu
here=$(cd "$(dirname "$0")" && pwd)
if [ "${1:-}" = --look ]; then
    shift
    exec python3 -B "$here/edits.py" look "$here/.." "$@"
fi
python3 -B "$here/edits.py" look "$here/.." "$@"
changed=$(git -C "$here/.." status --porcelain)
if [ -n "$changed" ]; then
    echo "tools/edits.sh tries what is committed, and these files have changes that aren't:" >&2
    echo "$changed" >&2
    exit 1
fi
room=$(mktemp -d)
trap 'rm -rf "$room"' EXIT
trap 'exit 1' HUP INT TERM
git clone -q "$(git -C "$here/.." rev-parse --show-toplevel)" "$room/clone"
cd "$room/clone"
for folder in crates/*/edits; do
    [ -d "$folder" ] || continue
    mkdir -p "${folder%edits}must-fail"
    cp "$folder"/*.edit "${folder%edits}must-fail/"
done
rt must-fail "$@" >"$room/said" 2>&1 || true
python3 -B "$here/edits.py" tell "$PWD" "$room/said" "$@"
