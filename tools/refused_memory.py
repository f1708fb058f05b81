#!/usr/bin/env python3
"""Refuses memory to the program, one allocation a run, outside the gate.

  tools/refused_memory.py [--program FILE] [STEP]

Three sessions of conformance/ are replayed: a client that authenticates, a whole player, and a stream that moves while it
plays. In a run of its own each of their allocations is refused, from the first to one that none of them makes. Each run must
end with status 3, the line `pulse_rw: out of memory` and a front of the session's output without its end byte, or with status
0 and the whole output.

Then a server is started for each allocation of its own, each STEP-th (1) of them, and a client plays a sound. Where a sink's
turn was refused memory it is made again, and the sound must be whole in the sink's file; otherwise the server must end with
status 3 before it plays, or end this client alone, whose frame it had no memory for, or the sound must be whole. How many
refusals there were of each kind is told; which of them met a turn is seen by the addresses on the stack.

The C compiler makes `refused_memory.c` beside this file into a library that is loaded before the C library, so the program is
the one that was built and proved. The last line is `N ended, N failed`, and the status is 1 where one failed."""

import bisect
import os
import subprocess
import sys
import tempfile

sys.dont_write_bytecode = True
HERE = os.path.dirname(os.path.realpath(__file__))
TOP = os.path.dirname(HERE)
sys.path[:0] = [HERE, os.path.join(TOP, "conformance")]

from client import Client, is_listened_at
from maker import make

ROWS = ("auth/current_client", "streams/whole", "moves/there")
WANT = b"pulse_rw: out of memory\n"
PROGRAM = os.path.join(TOP, "crates", "pulse_rw", "out", "pulse_rw")
PATIENCE = 10  # seconds that a client or the server may take
SOUND = bytes(range(1, 241)) * 16  # 960 frames of two channels in 16 bits
TURN = ("px_workers::sink_state::turn_once", "px_lane::mixer::SinkMixer::prepare")  # the calls that take a turn's memory


def refusing(room, number):
    """The environment in which the allocation of this number is refused."""
    said = {"LD_PRELOAD": os.path.join(room, "refused.so"), "REFUSED": str(number), "REFUSED_LOG": os.path.join(room, "log")}
    return dict(os.environ, **said)


def met(room):
    """The addresses on the stack at the refusal since the last call, if there was one."""
    path = os.path.join(room, "log")
    if not os.path.exists(path):
        return None
    with open(path, encoding="ascii") as file:
        addresses = [int(line, 16) for line in file]
    os.remove(path)
    return addresses


# ---- replays


def is_right(run, whole):
    """Whether a replay ended as it may, where `whole` is the one with all its memory."""
    if run.returncode == 3:
        return run.stderr == WANT and whole.stdout.startswith(run.stdout) and len(run.stdout) < len(whole.stdout)
    return (run.returncode, run.stderr, run.stdout) == (0, b"", whole.stdout)


def replays(room, program, row):
    """Of a session's replays how many ended as they may, and how many not."""
    with open(os.path.join(TOP, "conformance", f"{row}.session"), encoding="utf-8") as file:
        session = make(file.read())

    def replay(number):
        return subprocess.run([program, "replay"], input=session, capture_output=True, env=refusing(room, number))

    whole = replay(0)
    if (whole.returncode, whole.stderr) != (0, b""):
        raise ValueError(f"{row}: with all its memory it ends with status {whole.returncode}: {whole.stderr.decode()}")
    ended = failed = 0
    for number in range(1, sys.maxsize):
        run = replay(number)
        if met(room) is None:
            print(f"{row}: {number - 1} allocations")
            return ended, failed
        if is_right(run, whole):
            ended += 1
        else:
            failed += 1
            print(f"{row}, allocation {number}: status {run.returncode}, {len(run.stdout)} of {len(whole.stdout)} bytes, {run.stderr.decode().strip()}")


# ---- servers


def places(program):
    """The program's functions, by the offsets at which they begin."""
    said = subprocess.run(["nm", "-C", "--defined-only", program], capture_output=True, check=True, text=True)
    lines = [line.split(" ", 2) for line in said.stdout.splitlines()]
    return sorted((int(at, 16), name) for at, kind, name in lines if kind in "tT")


def is_in_turn(addresses, functions):
    begins = [at for at, _ in functions]
    names = [functions[bisect.bisect_right(begins, at) - 1][1] for at in addresses if at >= begins[0]]
    return any(name.startswith(TURN) for name in names)


def plays(path, cookie):
    """Whether a client could play the sound to its end."""
    try:
        with Client(path, PATIENCE) as client:
            client.enter(cookie)
            client.play("out", SOUND)
        return True
    except (OSError, TimeoutError):
        return False


def serve(room, program, number):
    """The status, the log and what the sink played of a server with one client, or with none where it ends before; and whether
    the client could play."""
    cookie, header, path = bytes(256), os.path.join(room, "desk.hdr"), os.path.join(room, "socket")
    with open(header, "wb") as file:
        subprocess.run([sys.executable, "-B", os.path.join(HERE, "header.py"), "--cookie", os.path.join(room, "cookie"), "out"], stdout=file, check=True)
    words = ["serve", "--header", header, "--socket", path, "--out", room, "--accept", "1"]
    server = subprocess.Popen([program, *words], stdout=subprocess.DEVNULL, stderr=subprocess.PIPE, env=refusing(room, number))
    while not is_listened_at(path) and server.poll() is None:
        pass
    heard = server.poll() is None and plays(path, cookie)
    try:
        log = server.communicate(timeout=PATIENCE)[1]
    except subprocess.TimeoutExpired:
        server.kill()
        log = server.communicate()[1] + b"it didn't end\n"
    raw = os.path.join(room, "out.raw")
    played = b""
    if os.path.exists(raw):
        with open(raw, "rb") as file:
            played = file.read()
    for name in (path, raw):
        if os.path.exists(name):
            os.remove(name)
    return server.returncode, log, played, heard


def servers(room, program, step):
    """Of the servers how many ended as they may, and how many not."""
    with open(os.path.join(room, "cookie"), "wb") as file:
        file.write(bytes(256))
    functions = places(program)
    ended = failed = turns = alone = 0
    for number in range(1, sys.maxsize, step):
        status, log, played, heard = serve(room, program, number)
        addresses = met(room)
        if addresses is None:
            print(f"serve: {number - 1} allocations; {turns} refusals met a sink's turn, {alone} ended the client alone")
            return ended, failed
        in_turn = is_in_turn(addresses, functions)
        whole = heard and SOUND in played
        cut = not heard and not in_turn and (status, log) == (0, b"")
        turns += in_turn
        alone += cut
        if whole and (status, log) == (0, b"") or not heard and not in_turn and (status, log) == (3, WANT) or cut:
            ended += 1
        else:
            failed += 1
            print(f"serve, allocation {number}: status {status}, the client {'played' if heard else 'did not play'}, {log.decode().strip()}")


def main(words):
    program, step = PROGRAM, 1
    while words:
        word = words.pop(0)
        if word == "--program" and words:
            program = os.path.abspath(words.pop(0))
        elif word.isdigit() and int(word):
            step = int(word)
        else:
            print(__doc__, file=sys.stderr)
            return 2
    with tempfile.TemporaryDirectory() as room:
        library = os.path.join(room, "refused.so")
        subprocess.run(["cc", "-O1", "-shared", "-fPIC", "-o", library, os.path.join(HERE, "refused_memory.c")], check=True)
        counts = [replays(room, program, row) for row in ROWS] + [servers(room, program, step)]
    ended, failed = map(sum, zip(*counts))
    print(f"{ended} ended, {failed} failed")
    return int(failed > 0 or ended == 0)


if __name__ == "__main__":
    try:
        sys.exit(main(sys.argv[1:]))
    except (ValueError, OSError, subprocess.SubprocessError) as wrong:
        print(f"tools/refused_memory.py: {wrong}", file=sys.stderr)
        sys.exit(1)
