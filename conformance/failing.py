"""Rows of conformance/live in which something fails: a start, a device, a disk, a descriptor, or a client's own bytes."""

import os
import subprocess
import sys
import tempfile
import time

from client import RATE, Client
from recording import TWO
from records import Records
from served import PATIENCE, TOP, Served, tone

DISK = 64 * 4096  # bytes of a disk, which an idle sink fills within two seconds
MOUNT = ["mount", "-t", "tmpfs", "-o", f"size={DISK}", "tmpfs"]


def stopped(path, cause):
    """The log of a server whose sink `out` stopped for this cause."""
    return f"pulse_rw: sink out: {path}: {cause}: the sink has stopped\npulse_rw: device failed\n"


def shut_out(program, folder):
    """A client of Python's own with another cookie is refused, and the server goes on."""
    sound = tone(RATE // 10, 2)
    served = Served(program, folder, 2, ["out"])
    try:
        served.enter(os.urandom(256))
        return False
    except ConnectionError:
        served.play("out", sound)
    return served.ended() == (0, "") and sound in served.played("out")


def unplugged(program, folder):
    """Where a pipe's reader goes away, its sink stops, the other goes on, and the status says so. The tape has the stop before the turn that it
    befell: replayed, that turn has the one record of a device that stopped, and the other sink plays what it did."""
    sound = tone(RATE // 2, 2)
    pipe = os.path.join(folder, "out.raw")
    os.mkfifo(pipe)
    reader = subprocess.Popen(["head", "-c", "1000", pipe], stdout=subprocess.DEVNULL)
    served = Served(program, folder, 1, ["out", "side"], "--tape")
    reader.wait(timeout=PATIENCE)
    served.play("side", sound)
    if served.ended() != (6, stopped(pipe, "Broken pipe (os error 32)")) or sound not in served.played("side"):
        return False
    session = served.session()
    stops = [at for at, event in enumerate(session.events) if event[0] == 7]
    if [session.events[at] for at in stops] != [(7, 0)] or session.events[stops[0] + 1][:3] != (5, 0, 0):
        return False
    # the frames that are settled at the stop are those of the guard, as each turn but the first has settled so many
    came = served.replayed()
    ends = [record for record in Records(came or b"", session.sinks) if record[0] == 4]
    consumed = sum(event[2] for event in session.events if event[:2] == (5, 0))
    settled = consumed + session.sinks[0].guard if consumed else None
    fits = [record[1] for record in ends] == [0] and settled in (None, ends[0][2])
    return fits and served.replayed("--raw", "side") == served.played("side") and served.replayed("--raw", "out") == bytes(4 * consumed)


def full(program, folder):
    """Where a sink's file takes no more, the sink stops, the other goes on, and the log has the file and the cause."""
    sound = tone(RATE // 2, 2)
    out = os.path.join(folder, "out.raw")
    os.symlink("/dev/full", out)
    served = Served(program, folder, 1, ["out", "side"])
    served.play("side", sound)
    return served.ended() == (6, stopped(out, "No space left on device (os error 28)")) and sound in served.played("side")


def full_disk(program, folder):
    """Where a disk fills up, its sink stops, what it had written is there, and the sink on another disk goes on."""
    sound, disk = tone(2 * RATE, 2), os.path.join(folder, "disk")
    out = os.path.join(folder, "out.raw")
    os.mkdir(disk)
    subprocess.run([*MOUNT, disk], check=True)
    try:
        os.symlink(os.path.join(disk, "out.raw"), out)
        served = Served(program, folder, 1, ["out", "side"])
        served.play("side", sound)
        ended = served.ended()
        written = len(served.played("out"))
    finally:
        subprocess.run(["umount", disk], check=True)
    return ended == (6, stopped(out, "No space left on device (os error 28)")) and written == DISK and sound in served.played("side")


def into_nothing(program, folder):
    """A sink into nothing plays: its clients come to their end."""
    os.symlink("/dev/null", os.path.join(folder, "out.raw"))
    served = Served(program, folder, 1, ["out"])
    served.play("out", tone(RATE // 2, 2))
    return served.ended() == (0, "") and served.played("out") == b""


def crowded(program, folder):
    """A second server at a socket that is in use is refused, and the first goes on: it was asked once whether it listens."""
    served = Served(program, folder, 2, ["out"])
    words = ["serve", "--header", os.path.join(folder, "desk.hdr"), "--socket", served.socket, "--out", os.path.join(folder, "other"), "--accept", "1"]
    second = subprocess.run([program, *words], capture_output=True, timeout=PATIENCE, text=True)
    served.enter(served.cookie)
    line = f"pulse_rw: cannot listen at {served.socket}: a server listens there already\npulse_rw: host failed\n"
    return (second.returncode, second.stderr) == (7, line) and served.ended() == (0, "")


def starts(program, folder):
    """Each start that fails says what failed, where and why, and has the status 7."""
    header, here, none = (os.path.join(folder, name) for name in ("desk.hdr", "here", "none"))
    with open(header, "wb") as file:
        make = [sys.executable, "-B", os.path.join(TOP, "tools", "header.py"), "--cookie", os.path.join(folder, "cookie"), "out"]
        with open(os.path.join(folder, "cookie"), "wb") as cookie:
            cookie.write(bytes(256))
        subprocess.run(make, stdout=file, check=True)
    os.mkdir(here)
    socket, inside, long = os.path.join(folder, "pulse.sock"), os.path.join(none, "pulse.sock"), os.path.join(folder, "s" * 108)
    absent = "No such file or directory (os error 2)"
    wrong = [
        ((none, socket, folder), f"cannot read {none}: {absent}"),
        ((here, socket, folder), f"cannot read {here}: Is a directory (os error 21)"),
        ((header, inside, folder), f"cannot listen at {inside}: {absent}"),
        ((header, long, folder), f"cannot listen at {long}: a socket's path has at most 107 bytes"),
        ((header, header, folder), f"cannot listen at {header}: another file is there"),
        ((header, socket, none), f"cannot make {none}/out.raw: {absent}"),
    ]
    if os.geteuid() != 0:
        os.mkdir(os.path.join(folder, "shut"), 0o500)
        shut = os.path.join(folder, "shut", "pulse.sock")
        wrong.append(((header, shut, folder), f"cannot listen at {shut}: Permission denied (os error 13)"))
    for (header_file, path, out), line in wrong:
        words = ["serve", "--header", header_file, "--socket", path, "--out", out, "--accept", "1"]
        said = subprocess.run([program, *words], capture_output=True, timeout=PATIENCE, text=True)
        if (said.returncode, said.stderr) != (7, f"pulse_rw: {line}\npulse_rw: host failed\n"):
            print(f"starts: {line}: {said.returncode} {said.stderr!r}")
            return False
    return True


def exhausted(program, folder):
    """A server without a descriptor for its next client says so, and ends once the one that it has goes."""
    served = Served(program, folder, 2, ["out"], files=6)
    with Client(served.socket, PATIENCE) as client:
        client.enter(served.cookie)
        with Client(served.socket, PATIENCE):
            time.sleep(0.2)
    log = served.server.communicate(timeout=PATIENCE)[1]
    cause = "Too many open files (os error 24)"
    lines = [f"pulse_rw: cannot {what} a client at {served.socket}: {cause}" for what in ("send from other threads to", "accept")]
    return (served.server.returncode, log.splitlines()) == (7, [*lines, "pulse_rw: host failed"])


def headers(program, folder):
    """A header of the second form is served as one of the first is, and one of a third form is refused."""
    sound, other = tone(RATE // 4, 2), os.path.join(folder, "other")
    served = Served(program, folder, 1, ["out"], word=TWO.magic())
    served.play("out", sound)
    if served.ended() != (0, "") or sound not in served.played("out"):
        return False
    os.mkdir(other)
    third = Served(program, other, 1, ["out"], word=b"PRS3").server
    return (third.communicate(timeout=PATIENCE)[1], third.returncode) == ("pulse_rw: refused at 0: magic\n", 1)


def broken(program, folder):
    """A client whose bytes are no frames finds the end at once, though nobody else comes."""
    served = Served(program, folder, 1, ["out"])
    with Client(served.socket, PATIENCE) as client:
        began = time.monotonic()
        client.send(bytes(20))
        ended = client.next_packet() is None and time.monotonic() - began < 2
    return ended and served.ended() == (0, "")


def can_mount():
    """Whether a small disk can be made and taken away again."""
    with tempfile.TemporaryDirectory() as disk:
        try:
            mounted = subprocess.run([*MOUNT, disk], capture_output=True).returncode == 0
        except OSError:
            return False
        return mounted and subprocess.run(["umount", disk], capture_output=True).returncode == 0


# all but `full_disk`, which wants a disk that can be mounted
ROWS = (shut_out, unplugged, full, into_nothing, crowded, starts, exhausted, headers, broken)
