#!/bin/sh
# `replay` beside the best plain Rust program of the same rules (bench/plain), a row a session. Usage: bench/replay.sh [ROW..]; see bench/replay.py.
exec python3 "$(dirname "$0")/replay.py" "$@"
