"""Rows of conformance/live with the words `ctl`: against this server, against PulseAudio where it is installed, and (`lying.py`) against servers of Python's own."""

import os
import socket
import subprocess
import time

import lying
import wire
from asking import INPUT_INFO, SINK_INFO, NORM, NO_ENTITY, ACCESS, COOKIE, USAGE, ctl, agree, refused, DONE, line
from client import UNSET, Client, is_listened_at
from served import PATIENCE, Served


# Servers that do the errands


def put_stream(client, sink):
    """A new stream on a sink, which waits for sound: the index of its input."""
    return client.create(sink, UNSET)[1]


def sink_of(client, index):
    """The sink that an input's info has."""
    items = client.ask(INPUT_INFO, wire.number(index))
    items.number(), items.text(), items.number(), items.number()
    return items.number()


def sink_volume(client, index):
    """The volume that a sink's info has, one number a channel."""
    items = client.ask(SINK_INFO, wire.number(index), wire.text(None))
    items.number(), items.text(), items.text(), items.spec(), items.map(), items.number()
    return items.volume()


def does_errands(run, client, out, side, flat):
    """Each errand is done on two sinks, of these indices, whose names are `out` and `side`: `run` has the words of one, and `client` is there already.
    With `flat` volumes those of a sink are those of its inputs too."""
    index = put_stream(client, "out")
    steps = [
        (("list",), line(index, out, [NORM] * 2, "no")),
        (("volume", str(index), "32768"), DONE),
        (("list",), line(index, out, [32_768] * 2, "no")),
        (("mute", str(index), "on"), DONE),
        (("list",), line(index, out, [32_768] * 2, "yes")),
        (("mute", str(index), "off"), DONE),
        (("list",), line(index, out, [32_768] * 2, "no")),
        (("sink-volume", "side", "16384"), DONE),
        (("volume", "99", "1"), refused(NO_ENTITY)),
        (("mute", "99", "on"), refused(NO_ENTITY)),
        (("sink-volume", "nowhere", "1"), refused(NO_ENTITY)),
        (("move", str(index), "nowhere"), refused(NO_ENTITY)),
        (("move", "99", "side"), refused(NO_ENTITY)),
        (("kill", "99"), refused(NO_ENTITY)),
        (("list",), line(index, out, [32_768] * 2, "no")),
    ]
    good = all([agree(run(*words), wanted) for words, wanted in steps])
    good = agree((sink_volume(client, out), sink_volume(client, side)), ([NORM] * 2, [16_384] * 2)) and good
    good = agree(run("move", str(index), "side"), DONE) and good
    until = time.monotonic() + PATIENCE
    while sink_of(client, index) != side and time.monotonic() < until:
        time.sleep(0.01)
    # its ratio to its sink's volume, a half, goes with it where volumes are flat
    good = agree(run("list"), line(index, side, [8_192 if flat else 32_768] * 2, "no")) and good
    good = agree(run("kill", str(index)), DONE) and good
    return agree(run("list"), DONE) and good


ERRANDS = 19  # how often `does_errands` connects


def errands(program, folder):
    """ctl lists inputs, sets their volume and their sink's, mutes, moves and kills them, and tells what this server refuses."""
    served = Served(program, folder, ERRANDS + 1, ["out", "side"])
    with Client(served.socket, PATIENCE) as client:
        client.enter(served.cookie)
        good = does_errands(lambda *words: ctl(program, served.socket, served.cookie, *words), client, 0, 1, True)
    return agree(served.ended(), (0, "")) and good


def shut(program, folder):
    """A cookie that isn't the server's is refused, and one of another length isn't sent. The server goes on."""
    served = Served(program, folder, 2, ["out"])
    good = agree(ctl(program, served.socket, os.urandom(256), "list"), refused(ACCESS))
    for cookie in (b"", served.cookie[:255], served.cookie + b"\0", served.cookie * 2):
        said = 1, "", f"pulse_rw: refused at {min(len(cookie), 256)}: cookie\n"
        good = agree(ctl(program, served.socket, cookie, "list"), said) and good
    good = agree(ctl(program, served.socket, served.cookie, "list"), DONE) and good
    return agree(served.ended(), (0, "")) and good


def same_list(program, folder):
    """ctl lists the inputs and sinks that `pactl list short sink-inputs` does."""
    served = Served(program, folder, 3, ["out", "side"])
    with Client(served.socket, PATIENCE) as client:
        client.enter(served.cookie)
        for sink in ("side", "out", "side"):
            put_stream(client, sink)
        good = lists_the_same(ctl(program, served.socket, served.cookie, "list"), served.environment, 3)
    return agree(served.ended(), (0, "")) and good


def lists_the_same(said, environment, count):
    status, output, _ = said
    short = subprocess.run(["pactl", "list", "short", "sink-inputs"], env=environment, capture_output=True, text=True, timeout=PATIENCE).stdout
    own, theirs = ([words.split() for words in text.splitlines()] for text in (output, short))
    good = agree((status, len(own)), (0, count))
    return agree([(words[1], words[3]) for words in own], [(words[0], words[1]) for words in theirs]) and good


# Words, and what can't be connected to


def words_of_ctl(program, folder):
    """Words of another form are Usage, whoever listens."""
    path = os.path.join(folder, "none")
    wrong = [
        (), ("--socket",), ("--socket", path), ("list",), ("list", "--socket", path), ("--socket", path, "lists"), ("--socket", path, "list", "more"),
        *(("--socket", path, *words) for words in (
            ("volume",), ("volume", "0"), ("volume", "0", "1", "2"), ("volume", "-1", "5"), ("volume", "+1", "5"), ("volume", "", "5"), ("volume", "a", "5"),
            ("volume", "4294967296", "1"), ("volume", "0", "2147483648"), ("mute", "0"), ("mute", "0", "yes"), ("mute", "0", "On"),
            ("sink-volume", "out"), ("sink-volume", "", "1"), ("sink-volume", "o" * 65, "1"), ("sink-volume", "o ut", "1"), ("sink-volume", "\u00f6", "1"),
            ("move", "0"), ("move", "0", ""), ("move", "out", "0x"), ("kill",), ("kill", "0", "0"), ("kill", "x"),
        )),
    ]
    good = True
    for words in wrong:
        ran = subprocess.run([program, "ctl", *words], input=COOKIE, capture_output=True, timeout=PATIENCE)
        found = ran.returncode, ran.stdout, ran.stderr.decode()[: len(USAGE)]
        if found != (2, b"", USAGE):
            good = agree((words, *found), (words, 2, b"", USAGE))
    return good


def nobody(program, folder):
    """Where nobody listens, or nothing is there, the cause is told, with the status of the host."""
    none, left, file = (os.path.join(folder, name) for name in ("none", "left", "file"))
    with socket.socket(socket.AF_UNIX) as listening:
        listening.bind(left)
    with open(file, "wb"):
        pass
    refusal = "Connection refused (os error 111)"
    good = True
    for path, cause in ((none, "No such file or directory (os error 2)"), (left, refusal), (file, refusal)):
        said = 7, "", f"pulse_rw: cannot connect to {path}: {cause}\npulse_rw: host failed\n"
        good = agree(ctl(program, path, COOKIE, "list"), said) and good
    return good


# PulseAudio


class PulseAudio:
    """PulseAudio under way with two sinks that play nowhere, at a socket and with a cookie of its own."""

    def __init__(self, folder):
        self.socket, cookie, script = (os.path.join(folder, name) for name in ("pulse.sock", "cookie", "script"))
        self.cookie = os.urandom(256)
        with open(cookie, "wb") as file:
            file.write(self.cookie)
        with open(script, "w", encoding="utf-8") as file:
            for sink in ("out", "side"):
                print(f"load-module module-null-sink sink_name={sink} rate=48000 channels=2 format=s16le", file=file)
            print(f"load-module module-native-protocol-unix socket={self.socket} auth-cookie={cookie}", file=file)
        words = ["pulseaudio", "--system=no", "--exit-idle-time=-1", "--daemonize=no", "--use-pid-file=no", "--disable-shm=yes", "-n", "-F", script]
        place = dict(os.environ, HOME=folder, XDG_RUNTIME_DIR=folder, XDG_CONFIG_HOME=folder)
        self.environment = dict(place, PULSE_SERVER=f"unix:{self.socket}", PULSE_COOKIE=cookie)
        Served.last = self.process = subprocess.Popen(words, env=place, stdout=subprocess.DEVNULL, stderr=subprocess.DEVNULL)
        until = time.monotonic() + PATIENCE
        while not is_listened_at(self.socket) and self.process.poll() is None and time.monotonic() < until:
            time.sleep(0.01)

    def end(self):
        self.process.terminate()
        self.process.wait(timeout=PATIENCE)


def at_pulseaudio(program, folder):
    """Each errand is done at PulseAudio too, and what it refuses is told."""
    server = PulseAudio(folder)
    with Client(server.socket, PATIENCE) as client:
        client.enter(server.cookie)
        good = does_errands(lambda *words: ctl(program, server.socket, server.cookie, *words), client, 0, 1, is_flat(server))
    server.end()
    return good


def is_flat(server):
    """Whether PulseAudio's volumes are flat here, which its configuration says."""
    said = subprocess.run(["pulseaudio", "--dump-conf"], env=server.environment, capture_output=True, text=True, timeout=PATIENCE).stdout
    return "flat-volumes = yes" in said


def same_list_at_pulseaudio(program, folder):
    """ctl lists the inputs and sinks of PulseAudio that `pactl list short sink-inputs` does."""
    server = PulseAudio(folder)
    with Client(server.socket, PATIENCE) as client:
        client.enter(server.cookie)
        for sink in ("side", "out", "side"):
            put_stream(client, sink)
        good = lists_the_same(ctl(program, server.socket, server.cookie, "list"), server.environment, 3)
    server.end()
    return good


# the rows of Python alone; and the others, with the commands that each wants
ROWS = (errands, shut, words_of_ctl, nobody, *lying.ROWS)
MORE = {**lying.MORE, same_list: ["pactl"], at_pulseaudio: ["pulseaudio"], same_list_at_pulseaudio: ["pulseaudio", "pactl"]}
