#!/bin/sh
# MB a second of a session that is made in memory and read: the proved code of px_session, and plain Rust built for the same
# processor level. Usage: bench/session.sh [EVENTS], of 64 KiB each; the best of five runs counts.
set -eu
events=${1:-640}
top=$(cd "$(dirname "$0")/.." && pwd)
work=$(mktemp -d)
trap 'rm -rf "$work"' EXIT
. "$top/bench/times.sh"

compare session px_session "$((events * 65536 / 1000000))" MB "$events"
