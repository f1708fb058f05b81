#!/bin/sh
# Runs the proved program with the words given; `--help` and `--version` are answered here.
# A tape, and a session made of one, has the user's cookie: the file that it goes into is made its owner's alone.
case " $* " in " convert "* | *" --tape "*) if [ -f /dev/stdout ]; then chmod 600 /dev/stdout 2>/dev/null || :; fi ;; esac
case "${1:-}" in
--version) echo "pulse_rw @VERSION@" ;;
--help) cat /usr/share/pulse_rw/help.txt ;;
*) exec /usr/lib/pulse_rw/pulse_rw "$@" ;;
esac
