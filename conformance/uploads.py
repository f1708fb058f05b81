"""Sessions of clients that upload samples and have them played: thrown with dice, and with as many as there can be."""

import random

import samples
import wire
from throws import moving_lines, taken

HEADER = "sink out s16le 1 48000 map 0 guard 10 depth 100"
FIRST = 0x80000000  # the number of a connection's first upload
NAMES = ("bell", "beep", "horn", "drum")
SHAPES = ((1, "0"), (1, "0"), (2, "1,2"), (2, "2,1"))
MORE = ("kill-input", "move", "volume", "mute", "remove", "delete", "infos")
WORDS = ("upload",) * 6 + ("data",) * 8 + ("finish",) * 10 + ("play",) * 16 + MORE * 2 + ("close",)


class Samplers:
    """Three clients, the uploads of each, and what they say next."""

    def __init__(self, dice):
        self.dice = dice
        self.made = {1: 0, 2: 0, 3: 0}
        self.there = {1: [], 2: [], 3: []}  # of each upload its number, how many bytes are missing, and those of a frame

    def line(self):
        """What one of them says next, in lines of an event each."""
        conn, word = self.dice.randrange(1, 4), self.dice.choice(WORDS)
        if word in ("data", "finish", "delete") and not self.there[conn]:
            word = "upload"
        return getattr(self, word.replace("-", "_"))(conn)

    def upload(self, conn):
        """Most are taken, and half of those get all that they want at once; the others have a float's format, are too long, or have no length."""
        code, (channels, positions) = self.dice.choice(samples.STREAMS), self.dice.choice(SHAPES)
        size = samples.SIZES[code] * channels
        length, kind = self.dice.randrange(1, 50) * size, self.dice.randrange(12)
        said = f"upload {conn} name {self.dice.choice(NAMES)} {{}} {channels} 48000 map {positions} length {{}}"
        if kind == 0:
            wrong = (wire.format_word(5), 0), (wire.format_word(code), 1_048_576 + 24), (wire.format_word(code), 0)
            return [said.format(*self.dice.choice(wrong))]
        number, missing = FIRST + self.made[conn], self.dice.choice((0, length))
        self.there[conn].append([number, missing, size])
        self.made[conn] += 1
        lines = [said.format(wire.format_word(code), length), f"data {conn} stream {number} hex {self.dice.randbytes(length).hex()}"]
        return lines[: 1 if missing else 2]

    def data(self, conn):
        """All that is missing, a part of it or more; now and then with an offset or another seek mode, so that it isn't added."""
        upload = self.dice.choice(self.there[conn])
        count = max(self.dice.choice((upload[1], upload[1], upload[1] // 2, upload[1] + 5)), 1)
        where = self.dice.choice(("",) * 10 + (" seek absolute", f" offset {upload[2]}"))
        upload[1] -= 0 if where else min(count, upload[1])
        return [f"data {conn} stream {upload[0]}{where} hex {self.dice.randbytes(count).hex()}"]

    def finish(self, conn):
        """One that is whole, where there is one."""
        whole = [upload for upload in self.there[conn] if not upload[1]] or self.there[conn]
        upload = self.dice.choice(whole)
        if not upload[1]:
            self.there[conn].remove(upload)
        return [f"finish-upload {conn} stream {upload[0]}"]

    def delete(self, conn):
        numbers = [self.there[conn].pop()[0], FIRST + self.dice.randrange(9)]
        return [f"delete-upload {conn} stream {number}" for number in numbers[: self.dice.randrange(1, 3)]]

    def play(self, conn):
        sink = self.dice.choice(("", "sink out", "sink wide", "index 2", "index 1", "index 1 sink out", "sink none", "index 5")[: self.dice.choice((5, 5, 8))])
        volume = self.dice.choice(("", "", "volume 65536", "volume 40000", "volume 90000", "volume 0x80000000"))
        return [f"play-sample {conn} {sink} {volume} name {self.dice.choice(NAMES)}"]

    def remove(self, conn):
        return [f"remove-sample {conn} name {self.dice.choice(NAMES)}"]

    def close(self, conn):
        """The third client comes and goes, with its uploads."""
        self.made[3], self.there[3] = 0, []
        return ["close 3", "connect 3", f"auth 3 version {self.dice.randrange(13, 19)}"]

    def infos(self, conn):
        return [self.dice.choice((f"input-infos {conn}", f"client-infos {conn}", f"sample-infos {conn}", f"client-info {conn} client 0"))]

    # what anybody may say of a play's input, which comes after the six streams of the two clients

    def number(self):
        return self.dice.randrange(6, 40)

    def kill_input(self, conn):
        return [f"kill-input {conn} input {self.number()}"]

    def move(self, conn):
        return [f"move {conn} input {self.number()} sink {self.dice.choice(('out', 'wide', 'low'))}"]

    def volume(self, conn):
        return [f"volume {conn} input {self.number()} volume {self.dice.choice((0, 32768, 65536, 80000))}"]

    def mute(self, conn):
        return [f"mute {conn} input {self.number()} {self.dice.choice(('on', 'off'))}"]


def throw(number, turns, server_of):
    """Six streams of two clients on three sinks, and samples of three clients that are played there too. Near the end a client kills the server's own
    connection, after which nothing is played. `server_of` makes the server that says how many messages wait before each turn."""
    dice = random.Random(number)
    lines = list(moving_lines(dice, turns, ("data",) * 3 + ("move", "cork", "drain", "volume")))
    clients, said, count = Samplers(dice), [], 0
    for line in lines:
        if line.startswith("turn"):
            count += 1
            for _ in range(dice.randrange(6)):
                said += clients.line()
            said += ["kill-client 1 client 0"] if count == turns * 9 // 10 else []
        said.append(line)
        if line.startswith("auth 2"):
            said += ["connect 3", "auth 3 version 18"]
    head = [f"# Thrown with the dice of {number}: samples of three clients on three sinks, {turns} turns. Its output is conformance/cached.py's.", ""]
    return "\n".join([*head, *said[:3], "", *taken(said, dice, server_of=server_of), "end", ""])


def kept(conn, at, name, value, length=2):
    """The lines by which a connection's upload `at` is kept under a name, the same byte all over."""
    said = f"upload {conn} name {name} u8 1 48000 map 0 length {length}"
    return [said, f"data {conn} stream {FIRST + at} hex {value:02x}x{length}", f"finish-upload {conn} stream {FIRST + at}"]


def crowded():
    """256 samples and one more, which waits until it has its bytes and another is removed; one that takes the place of its name needs no room."""
    lines = ["# There are at most 256 samples: one more isn't kept, and its upload stays; in place of one of its name, or of one that is removed, it is."]
    lines += [HEADER]
    lines += ["connect 1", "auth 1 version 13"]
    for at in range(256):
        lines += kept(1, at, f"n{at}", 0x80 + at % 50)
    again = f"finish-upload 1 stream {FIRST + 256}"
    begun, data, _ = kept(1, 256, "more", 0xFF)
    lines += [begun, again, data, again, *kept(1, 257, "n7", 0x90), again, "remove-sample 1 name n0", again, again]
    lines += [*kept(1, 258, "n0", 0x81), f"delete-upload 1 stream {FIRST + 258}"]
    # the eighth is the one that came later
    lines += ["play-sample 1 name n0", "play-sample 1 name n7", "turn out 0 take 4", "turn out 2 take 0"]
    lines += ["play-sample 1 name more", "play-sample 1 name n255", "turn out 0 take 8", "turn out 100 take 0"]
    return "\n".join([*lines, "end", ""])


def largest():
    """64 samples of 1,048,576 bytes, which are 67,108,864 together, and one more byte; an upload is no longer than one of them."""
    lines = ["# Samples have at most 67,108,864 bytes together, 64 of the longest that there can be. Of one whose place is taken the bytes don't count."]
    lines += ["form 2", HEADER, "connect 1", "auth 1 version 13", "upload 1 name n u8 1 48000 map 0 length 1048577"]
    for at in range(64):
        lines += kept(1, at, f"n{at}", 0x80, 1_048_576)
    lines += [*kept(1, 64, "more", 0x81, 1), *kept(1, 65, "n5", 0x80, 1_048_576), f"finish-upload 1 stream {FIRST + 64}"]
    lines += [*kept(1, 66, "n5", 0x80, 1_048_575), f"finish-upload 1 stream {FIRST + 64}", *kept(1, 67, "n5", 0x80, 1_048_576)]
    return "\n".join([*lines, "end", ""])
