#!/bin/sh
# How the time and the memory of sessions grow that bring little and could cost much. Usage: bench/costs.sh [ROW..]; see bench/costs.py.
exec python3 "$(dirname "$0")/costs.py" "$@"
