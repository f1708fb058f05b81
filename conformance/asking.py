"""The words `ctl` of the program, run with a cookie, and how they may end."""

import subprocess

from served import PATIENCE

ERROR, INPUT_INFO, INPUT_INFOS, SINK_INFO = 0, 29, 30, 21
SET_SINK_VOLUME, SET_INPUT_VOLUME, KILL_INPUT, MOVE_INPUT, SET_INPUT_MUTE = 36, 37, 49, 67, 69
MESSAGE = 0xFFFFFFFF  # the tag of what answers nothing
NORM = 65_536
NO_ENTITY, ACCESS = 5, 1
LONGEST = 1 << 30  # bytes after which a client gives up
SILENCE = 1_000_000  # receives in a row that find nothing after which it does
COOKIE = bytes(range(256))
USAGE = "pulse_rw: usage: "


def has_ctl(program):
    """Whether a program has the words `ctl`, which its usage text tells."""
    return "ctl --socket" in subprocess.run([program], capture_output=True, text=True, timeout=PATIENCE).stderr


def ctl(program, path, cookie, *words, patience=PATIENCE, environment=None):
    """The status, the output and the log of `ctl` with these words, where its input is `cookie`."""
    ran = subprocess.run([program, "ctl", "--socket", path, *words], input=cookie, env=environment, capture_output=True, timeout=patience)
    return ran.returncode, ran.stdout.decode(), ran.stderr.decode()


def agree(found, wanted):
    """Whether what was found is what was wanted; what differs is told."""
    if found != wanted:
        print(f"  wanted {wanted!r}\n  came   {found!r}")
    return found == wanted


def refused(code):
    return 10, "", f"pulse_rw: server refused {code}\n"


def bad(at):
    return 11, "", f"pulse_rw: bad reply at {at}\n"


GONE = (12, "", "pulse_rw: server gone\n")
SILENT = (13, "", "pulse_rw: server silent\n")
DONE = (0, "", "")


def line(index, sink, volumes, mute):
    return 0, f"input {index} sink {sink} volume {','.join(map(str, volumes))} mute {mute}\n", ""
