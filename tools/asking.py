"""The built program, asked how many messages or notices wait."""

import os
import re
import subprocess

from recording import spelled_turn
from words import NONE, Wrong

TOP = os.path.dirname(os.path.dirname(os.path.abspath(__file__)))
REFUSED = re.compile(rb"pulse_rw: refused at [0-9]+: (.*)\n")
TOO_MANY = re.compile(rb"too many, ([0-9]+) of ([0-9]+)")


def program():
    """Where the built program is: what PULSE_RW_PROGRAM names, the one that is installed beside installed tools, or the one that is built from these very sources."""
    if "PULSE_RW_PROGRAM" in os.environ:
        return os.environ["PULSE_RW_PROGRAM"]
    if not os.path.exists(os.path.join(TOP, "crates.txt")):
        return "pulse_rw"
    total = subprocess.run([os.path.join(TOP, "tools", "sources.sh")], capture_output=True, text=True).stdout.strip()
    if subprocess.run([os.path.join(TOP, "tools", "built.sh"), "is", total]).returncode:
        raise Wrong("`take all` asks the program how many there are: run ./pulse_rw once, so that it is built")
    return os.path.join(TOP, "crates", "pulse_rw", "out", "pulse_rw")


def waiting(session, sink, frames, form):
    """How many messages wait for a sink at the end of a session's events so far, or, without a count of frames, how many of its notices."""
    asked = session + spelled_turn(sink, frames, NONE, form)
    try:
        ran = subprocess.run([program(), "replay"], input=asked, stdout=subprocess.DEVNULL, stderr=subprocess.PIPE)
    except OSError as fault:
        raise Wrong(f"`take all` asks the program, which can't be run: {fault.strerror}") from None
    refused = REFUSED.fullmatch(ran.stderr)
    counts = refused and TOO_MANY.fullmatch(refused[1])
    if counts and int(counts[1]) == NONE:
        return int(counts[2])
    raise Wrong(f"`take all` asked the program, which says: {(refused[1] if refused else ran.stderr).decode(errors='replace').strip()}")
