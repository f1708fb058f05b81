#!/bin/sh
# The sum of all that the program is proved and built from: crates.txt, and the .rt and .antt files of the crates. It
# tells by content, not by time, whether a built program is one of these sources.
set -eu
cd "$(dirname "$0")/.."
{
    echo crates.txt
    find crates -name out -prune -o -type f \( -name '*.rt' -o -name '*.antt' \) -print
} | LC_ALL=C sort | tr '\n' '\0' | xargs -0 sha256sum | sha256sum | cut -d ' ' -f 1
