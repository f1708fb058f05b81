#!/usr/bin/env python3
"""What a few bytes can cost: sessions in which each event brings little and can make the program move much, each at two sizes, as a table.

  bench/costs.py [--program FILE] [--least N] [ROW..]

The rows are the attacks of conformance/attacks.py, all of them where none is named. For each: the bytes of its session, the processor time and
the greatest memory of `replay` at N and at twice as many, and the factors by which both grow. What is right grows by two, as what the
events bring does; a cost that grows with the square of it grows by four. N is what COUNTS says where nothing else does. The best of three runs
counts. Where a plain Rust program of bench/ plays the session too, it is timed on it, and must write the same. It wants rustc for that, and
GNU time for the memory."""

import os
import re
import shutil
import subprocess
import sys
import tempfile

TOP = os.path.dirname(os.path.dirname(os.path.realpath(__file__)))
sys.path[:0] = [os.path.join(TOP, "conformance"), os.path.join(TOP, "tools")]
sys.dont_write_bytecode = True

import attacks
import wire
from maker import Maker, heard_frame, make
from packets import COMMANDS
from recording import spelled_bytes
from words import Words, words_of

PROGRAM = os.path.join(TOP, "crates", "pulse_rw", "out", "pulse_rw")
COUNTS = {
    "moved": 20_000,
    "back_and_forth": 200,
    "falling": 10_000,
    "shuffled": 10_000,
    "split_up": 5_000,
    "single_frames": 50_000,
    "flushed": 10_000,
    "overflowing": 20_000,
    "nowhere": 20_000,
    "one_hash": 5_000,
    "removed_keys": 20_000,
    "one_key_of_many": 10_000,
    "renamed": 10_000,
    "come_and_gone": 2_000,
    "connected": 20_000,
    "visited": 5_000,
    "declared": 30,
    "in_pieces": 200_000,
    "drained": 20_000,
    "asked": 10_000,
    "in_vain": 10_000,
    "requested": 20_000,
    "listeners": 400,
    "lists": 400,
    "sink_volumes": 4_000,
    "silence": 64,
    "unchanged": 1_000,
    "rewound": 1_000,
}
DATA = re.compile(r"data (\d+) stream (\d+)(?: as s16le 1 48000)?(?: seek (absolute) offset (\d+))? (\d+)")
PLAIN = {"single_frames": "plain"}  # the program that plays a session, on one sink in stereo
CHANNELS = {"single_frames": 2, "silence": 8}  # of the streams that have more than one
STEREO = "s16le 2 48000 map 1,2"


class Swift(Maker):
    """Makes a session of lines as `make` does it, but at once where a line is plain data, or a command that was made before."""

    def __init__(self, channels):
        super().__init__(".")
        self.channels, self.known = channels, {}

    def swift(self, line):
        data, word = DATA.fullmatch(line), line.split(" ", 1)[0]
        if data:
            sound = int(data[5]).to_bytes(2, "little") * self.channels
            self.made += spelled_bytes(int(data[1]), wire.frame_of(int(data[2]), int(data[4] or 0), 1 if data[3] else 0, sound))
        elif word in COMMANDS:
            self.command(line)
        else:
            self.line(Words(words_of(line)))

    def command(self, line):
        """The frame of a command; only the tag differs where the same line comes again."""
        if line in self.known:
            conn, frame = self.known[line]
            tag = self.scene.tags[conn]
            frame, self.scene.tags[conn] = frame[:26] + tag.to_bytes(4, "big") + frame[30:], tag + 1
        else:
            words = Words(words_of(line))
            conn, frame = self.known[line] = heard_frame(words.take("a word"), words, self.scene)
            self.scene.saw(conn, frame)
        self.cut(conn, frame)


def session_of(name, count):
    """The session of an attack."""
    if name in ("in_pieces", "declared"):
        return make(attacks.thrown(name, count))
    lines = list(attacks.ATTACKS[name](count))
    if name in PLAIN:
        lines = [line.replace(attacks.MONO, STEREO) for line in lines if not line.startswith("sink left")]
    maker = Swift(CHANNELS.get(name, 1))
    for line in [*lines, "end"]:
        maker.swift(line)
    return bytes(maker.made)


def run(words, file, output):
    """The processor seconds of a program with this input, which must end well."""
    file.seek(0)
    child = os.fork()
    if child == 0:
        os.dup2(file.fileno(), 0)
        os.dup2(output.fileno(), 1)
        os.execv(words[0], words)
    _, status, usage = os.wait4(child, 0)
    if status:
        raise SystemExit(f"{words[0]} ended with status {os.waitstatus_to_exitcode(status)}")
    return usage.ru_utime + usage.ru_stime


def memory(words, file):
    """The greatest memory in megabytes, or None without GNU time. What the system says of a child of this process counts this one's too."""
    if not os.path.exists("/usr/bin/time"):
        return None
    file.seek(0)
    with tempfile.NamedTemporaryFile() as said:
        subprocess.run(["/usr/bin/time", "-f", "%M", "-o", said.name, *words], stdin=file, stdout=subprocess.DEVNULL, check=True)
        return int(said.read()) / 1024


def cost(words, session):
    """The least processor seconds, the greatest memory, and what is written."""
    with tempfile.TemporaryFile() as file, tempfile.TemporaryFile() as output:
        file.write(session)
        file.flush()
        best = run(words, file, output)
        output.seek(0)
        written = output.read()
        with open(os.devnull, "wb") as nowhere:
            # what takes long is long enough to count
            best = min([best] + [run(words, file, nowhere) for _ in range(2 if best < 2 else 0)])
        return best, memory(words, file), written


def pair(unit, small, large):
    """Two figures and the factor between them."""
    if small is None:
        return "| – |"
    return f"{small:.{unit}f}, {large:.{unit}f} | {large / max(small, 0.001):.1f} |"


def shown(program, name, least, plain):
    count = least or COUNTS[name]
    small, large = session_of(name, count), session_of(name, 2 * count)
    (time, size, written), (later, more, last) = cost([program, "replay"], small), cost([program, "replay"], large)
    said = " – | – |"
    if plain and name in PLAIN:
        (own, _, same), (then, _, too) = cost([plain], small), cost([plain], large)
        if (same, too) != (written, last):
            raise SystemExit(f"{name}: the two programs disagree")
        said = " " + pair(3, own, then)
    print(f"| {name} | {count}, {2 * count} | {len(small) / 1000:.0f}, {len(large) / 1000:.0f} | {pair(3, time, later)} {pair(1, size, more)}{said}", flush=True)


def main(words):
    program, least = PROGRAM, None
    while words[:1] and words[0] in ("--program", "--least") and len(words) > 1:
        if words[0] == "--program":
            program = os.path.realpath(words[1])
        else:
            least = int(words[1]) if words[1].isdecimal() else 0
        words = words[2:]
    if least == 0 or any(word not in COUNTS for word in words):
        print(__doc__, "Rows:", ", ".join(COUNTS), file=sys.stderr)
        return 2
    with tempfile.TemporaryDirectory() as folder:
        plain = os.path.join(folder, "plain") if shutil.which("rustc") else None
        if plain:
            built = ["rustc", "--edition", "2021", "-O", "-C", "target-cpu=x86-64-v2", "-o", plain, os.path.join(TOP, "bench", "plain", "main.rs")]
            subprocess.run(built, check=True)
        print("| Row | N | KB | Seconds | by | MB | by | Plain Rust, seconds | by |\n|---|--:|--:|--:|--:|--:|--:|--:|--:|", flush=True)
        for name in words or COUNTS:
            shown(program, name, least, plain)
    return 0


if __name__ == "__main__":
    sys.exit(main(sys.argv[1:]))
