#!/usr/bin/env python3
"""The processor time of `replay` beside that of the best plain Rust program of the same rules (bench/plain), for each session of a table.

  bench/replay.py [--program FILE] [--plain FILE] [--runs RUNS] [ROW..]

The sessions are those of bench/session_of_streams.py. In each of RUNS rounds (nine where nothing else is said) both programs run one after the
other, their output thrown away; the medians count, and before them both outputs are compared byte for byte. The table is in Markdown: seconds of sound
that each plays in a second of processor time (user's and kernel's), the ratio of the rates, above 1 where `replay` is the faster one, with the least
and the greatest of the rounds, and the most memory that each takes. With names of rows these alone are made.
It wants rustc and GNU time."""

import os
import statistics
import subprocess
import sys
import tempfile

sys.dont_write_bytecode = True
HERE = os.path.dirname(os.path.realpath(__file__))
TOP = os.path.dirname(HERE)
RUSTC = ["rustc", "--edition", "2024", "-O", "-C", "target-cpu=x86-64-v2", "-C", "codegen-units=1", "-C", "panic=abort"]
LENGTHS = {1: 60, 8: 20, 32: 10, 64: 6, 200: 3}  # the seconds of sound by the count of streams
# a row's name, what it is, and the words of its session
ROWS = [
    (f"{streams}-{depth}", f"{streams} at a depth of {depth:,}", [seconds, streams, depth])
    for streams, seconds in LENGTHS.items()
    for depth in (960, 4_800)
] + [
    ("8-wait", "8 at 4,800, 96,000 frames wait", [20, 8, 4_800, 96_000]),
    ("200-wait", "200 at 4,800, 96,000 frames wait", [3, 200, 4_800, 96_000]),
    ("1-65280", "1 at 65,280", [60, 1, 65_280]),
    ("moves", "1 at 65,280 that moves at each turn", [10, 1, 65_280, "--moves"]),
    ("channels-s16", "8 of 32 channels, S16", [3, 8, 960, "--channels", 32]),
    ("channels-s32", "8 of 32 channels, S32", [3, 8, 960, "--channels", 32, "--format", "s32le"]),
    ("write-1", "8, a frame a write", [3, 8, 960, "--write", 1]),
    ("write-16", "8, 16 frames a write", [10, 8, 960, "--write", 16]),
    ("sinks-16", "16 on 16 sinks", [10, 16, 960, "--sinks", 16]),
    ("sinks-64", "64 on 16 sinks", [6, 64, 960, "--sinks", 16]),
]


def run(words, session, output):
    """Runs a program on a session: its processor time in seconds."""
    with open(session, "rb") as source, open(output, "wb") as target:
        ran = subprocess.Popen(words, stdin=source, stdout=target)
        _, status, usage = os.wait4(ran.pid, 0)
        ran.returncode = os.waitstatus_to_exitcode(status)
    if ran.returncode:
        raise SystemExit(f"{' '.join(words)}: status {ran.returncode}")
    return usage.ru_utime + usage.ru_stime


def memory_of(words, session, output, peak):
    """Runs a program on a session: the most memory that it took in MB. What Python itself takes would count in `run`."""
    run(["/usr/bin/time", "-f", "%M", "-o", peak, *words], session, output)
    with open(peak, encoding="ascii") as file:
        return int(file.read()) / 1_024


def same(first, second):
    with open(first, "rb") as one, open(second, "rb") as other:
        return one.read() == other.read()


def row(what, words, programs, runs, work):
    """The row of a session, for the two programs."""
    session, outputs = os.path.join(work, "session"), [os.path.join(work, name) for name in ("proved", "plain")]
    with open(session, "wb") as file:
        subprocess.run([sys.executable, os.path.join(HERE, "session_of_streams.py"), *map(str, words)], stdout=file, check=True)
    memory = [memory_of(program, session, output, os.path.join(work, "peak")) for program, output in zip(programs, outputs)]
    if not same(*outputs):
        raise SystemExit(f"{what}: the two programs disagree")
    rounds = [[run(program, session, os.devnull) for program in programs] for _ in range(runs)]
    proved, plain = map(statistics.median, zip(*rounds))
    ratios = [plain / proved for proved, plain in rounds]
    rates = [words[0] / max(time, 0.000_1) for time in (proved, plain)]
    told = f"| {what} | {rates[0]:,.0f} | {rates[1]:,.0f} | {plain / proved:.2g} ({min(ratios):.2g} to {max(ratios):.2g}) |"
    print(f"{told} {memory[0]:.1f}, {memory[1]:.1f} |", flush=True)


def main(words):
    program, plain, runs, words = os.path.join(TOP, "crates", "pulse_rw", "out", "pulse_rw"), None, 9, list(words)
    while len(words) > 1 and words[0] in ("--program", "--plain", "--runs"):
        word, value = words.pop(0), words.pop(0)
        if word == "--runs":
            runs = int(value)
        elif word == "--plain":
            plain = os.path.realpath(value)
        else:
            program = os.path.realpath(value)
    rows = [it for it in ROWS if not words or it[0] in words]
    if set(words) - {it[0] for it in ROWS}:
        print(__doc__, "\nThe rows: " + ", ".join(it[0] for it in ROWS), file=sys.stderr)
        return 2
    with tempfile.TemporaryDirectory() as work:
        if plain is None:
            plain = os.path.join(work, "plain_program")
            subprocess.run([*RUSTC, "-o", plain, os.path.join(HERE, "plain", "main.rs")], check=True)
        print("| Streams | Seconds of sound a second: `replay` | plain Rust | Ratio | Memory, MB |\n|---|--:|--:|--:|--:|")
        for _, what, shape in rows:
            row(what, shape, [[program, "replay"], [plain]], runs, work)
    return 0


if __name__ == "__main__":
    sys.exit(main(sys.argv[1:]))
