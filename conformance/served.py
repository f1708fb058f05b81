"""A server under way on a socket in a folder of its own, and sounds for its clients."""

import math
import os
import resource
import struct
import subprocess
import sys
import time

HERE = os.path.dirname(os.path.realpath(__file__))
TOP = os.path.dirname(HERE)
sys.path[:0] = [HERE, os.path.join(TOP, "tools")]

from client import RATE, VERSION, Client, is_listened_at
from recording import ONE, read_session

PATIENCE = 30  # seconds that a client or the server may take


def tone(frames, channels, pitch=440, peak=20_000):
    """Samples of 16 bits, in which no two frames side by side are equal for long."""
    said = []
    for frame in range(frames):
        for channel in range(channels):
            said.append(round(peak * math.sin(2 * math.pi * pitch * (channel + 1) * frame / RATE)) or 1)
    return struct.pack(f"<{len(said)}h", *said)


def wav(sound, channels, width=2, rate=RATE):
    """A WAV of samples of 8 * `width` bits."""
    shape = struct.pack("<HHIIHH", 1, channels, rate, rate * channels * width, channels * width, 8 * width)
    body = b"WAVEfmt " + struct.pack("<I", len(shape)) + shape + b"data" + struct.pack("<I", len(sound)) + sound
    return b"RIFF" + struct.pack("<I", len(body)) + body


class Served:
    """A server under way in a folder of its own, for `clients` clients on these sinks; its header begins with `word`."""

    last = None  # the process of the one that was started last

    def __init__(self, program, folder, clients, sinks, *more, word=ONE.magic(), files=None, cookie=None):
        self.program, self.folder = program, folder
        self.cookie = cookie or os.urandom(256)
        cookie, header = self.file("cookie", self.cookie), os.path.join(folder, "desk.hdr")
        self.socket = os.path.join(folder, "pulse.sock")
        with open(header, "wb") as file:
            subprocess.run([sys.executable, "-B", os.path.join(TOP, "tools", "header.py"), "--cookie", cookie, *sinks], stdout=file, check=True)
        with open(header, "r+b") as file:
            file.write(word)
        self.environment = dict(os.environ, PULSE_COOKIE=cookie, PULSE_SERVER=f"unix:{self.socket}", HOME=folder)
        # one place more, for the client that comes last
        words = ["serve", "--header", header, "--socket", self.socket, "--out", folder, "--accept", str(clients + 1), *more]
        self.tape = open(os.path.join(folder, "tape"), "wb")
        # with at most `files` open files, where that is said
        limit = None if files is None else lambda: resource.setrlimit(resource.RLIMIT_NOFILE, (files, files))
        self.server = Served.last = subprocess.Popen([program, *words], stdout=self.tape, stderr=subprocess.PIPE, text=True, preexec_fn=limit)
        until = time.monotonic() + PATIENCE
        while not is_listened_at(self.socket) and self.server.poll() is None and time.monotonic() < until:
            time.sleep(0.01)

    def client(self, *words, **how):
        return subprocess.run(words, env=self.environment, capture_output=True, timeout=PATIENCE, **how)

    def begun(self, *words):
        return subprocess.Popen(words, env=self.environment, stdout=subprocess.DEVNULL, stderr=subprocess.DEVNULL)

    def enter(self, cookie):
        """A client of Python's own that connects, is let in by this cookie, and goes."""
        with Client(self.socket, PATIENCE) as client:
            client.enter(cookie)

    def play(self, sink, sound, version=VERSION):
        """A client of Python's own that plays a sound on a sink to its end."""
        with Client(self.socket, PATIENCE, version) as client:
            client.enter(self.cookie)
            client.play(sink, sound)

    def ended(self):
        """The server's status and what it logged, once its clients have gone and what can't change any more was played: a sink stops with
        the last client."""
        time.sleep(0.2)
        self.enter(self.cookie)
        log = self.server.communicate(timeout=PATIENCE)[1]
        self.tape.close()
        return self.server.returncode, log

    def ended_at_last(self):
        """The same where nobody knows how often its clients have connected: others come, and hang up, until no more are taken."""
        time.sleep(0.2)
        until = time.monotonic() + PATIENCE
        while self.server.poll() is None and time.monotonic() < until:
            try:
                Client(self.socket, PATIENCE).socket.close()
            except OSError:
                pass  # it takes no more
            time.sleep(0.01)
        log = self.server.communicate(timeout=PATIENCE)[1]
        self.tape.close()
        return self.server.returncode, log

    def session(self):
        """The tape as a session."""
        with open(self.tape.name, "rb") as tape:
            return read_session(tape.read())

    def replayed(self, *words):
        """What the tape gives, replayed with these words; None where that fails."""
        with open(self.tape.name, "rb") as tape:
            ran = subprocess.run([self.program, "replay", *words], stdin=tape, capture_output=True, timeout=PATIENCE)
        return ran.stdout if (ran.returncode, ran.stderr) == (0, b"") else None

    def file(self, name, data):
        path = os.path.join(self.folder, name)
        with open(path, "wb") as file:
            file.write(data)
        return path

    def played(self, sink):
        with open(os.path.join(self.folder, f"{sink}.raw"), "rb") as file:
            return file.read()
