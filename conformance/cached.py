#!/usr/bin/env python3
"""Reckons what `replay --samples` must give, over the reckoner of `replay`, and shares no code with the program.

  conformance/cached.py SESSION.session > SESSION.output
  conformance/cached.py --dice NUMBER TURNS > SESSION.session   samples of three clients that are played on three sinks, with dice
  conformance/cached.py --crowded > SESSION.session             as many samples as there can be, one more, and others in their places
  conformance/cached.py --largest > SESSION.session             as many bytes in samples as there can be, and one more
  conformance/cached.py --fronts > SESSION.session              the mode's commands cut off at each byte, and with a byte too many

A command of samples, from a client whose AUTH was taken, never reaches the server: it is answered here, and so is sound for an upload. The samples
are what is left of all uploads that were finished and all names that were removed, in order. A play is three events of a connection that nobody
else has, as any client might send them: CREATE, the sample's bytes and DRAIN; where DRAIN has its reply a fourth, DELETE. What the server sends
there is heard here and isn't shown."""

import sys

import reckon
import strict
import wire
from fronts import thrown_samplers
from maker import make
from packets import NEWEST
from recording import read_session
from server import SAMPLER_NUMBERS
from strict import MAP, NUMBER, PROPERTIES, SPEC, TEXT
from uploads import crowded, largest, throw
from words import NONE

import output

BADSTATE, INVALID, NOENTITY, TOOLARGE, NOTSUPPORTED = 15, 3, 5, 18, 19
ERROR, REPLY, CREATE, DELETE, AUTH, SET_NAME, DRAIN = 0, 2, 3, 4, 8, 9, 12
HIDDEN = NONE  # the number of the server's own connection
FIRST_UPLOAD = 0x80000000
MOST_UPLOADS, MOST_SAMPLES, MOST_PLAYS = 16, 256, 64  # of one connection; in all; under way
LONGEST, LONGEST_IN_ALL = 1_048_576, 67_108_864  # bytes
LOUDEST, FULL = 0x7FFFFFFF, 0x10000
UPLOAD_ALONE = [("stream", NUMBER)]
FIELDS = {
    15: [("name", TEXT), ("spec", SPEC), ("map", MAP), ("length", NUMBER), ("list", PROPERTIES)],
    16: UPLOAD_ALONE,
    17: UPLOAD_ALONE,
    18: [("index", NUMBER), ("sink", TEXT), ("volume", NUMBER), ("name", TEXT), ("list", PROPERTIES)],
    19: [("name", TEXT)],
}


class Upload:
    """What is to be kept under a name: its format and its bytes as far as they have come."""

    def __init__(self, name, spec, positions, length):
        self.name, self.spec, self.positions, self.length, self.bytes = name, spec, positions, length, b""


def kept(changes):
    """The samples that are left of finished uploads and of removals, in order; a removal has None for its sample."""
    samples = {}
    for name, sample in changes:
        samples.pop(name, None)
        if sample:
            samples[name] = sample
    return samples


class Cached(reckon.Server):
    """Plays a session with samples. `begun` and `ended` count the plays whose CREATE and DRAIN had a reply."""

    def __init__(self, cookie, sinks):
        super().__init__(cookie, sinks)
        self.uploads, self.made = {}, {}  # by connection and number; how many each connection made
        self.changes = []
        self.plays, self.due = [], []  # the streams whose DRAIN waits, and those that are to be deleted
        self.answered = None  # what the server's own connection was answered last
        self.begun = self.ended = 0
        super().event((1, HIDDEN))
        self.ask(AUTH, 0, wire.number(NEWEST), wire.arbitrary(cookie))
        self.ask(SET_NAME, 1, wire.properties([(b"application.name", b"sample-cache\0")]))

    # the server's own connection

    def ask(self, command, tag, *fields):
        """An event of the server's own connection."""
        self.write(wire.packet_frame(wire.number(command) + wire.number(tag) + b"".join(fields)))

    def write(self, frame):
        super().event((2, HIDDEN, frame))

    def send(self, conn, command, tag, fields=b""):
        if conn != HIDDEN:
            return super().send(conn, command, tag, fields)
        if command not in (ERROR, REPLY):
            return None  # a message, which answers nothing
        self.answered = command, wire.Items(fields)
        if tag in self.plays:
            self.plays.remove(tag)
            self.due += [tag] * (command == REPLY)
            self.ended += command == REPLY
        return None

    def end(self, conn, reason, fault=0, at=0):
        before = len(self.said)
        super().end(conn, reason, fault, at)
        if conn == HIDDEN:
            del self.said[before:]
            self.plays, self.due = [], []

    def leave(self, conn):
        super().leave(conn)
        self.uploads = {key: upload for key, upload in self.uploads.items() if key[0] != conn}

    def event(self, event):
        if event[0] == 1:
            self.made[event[1]] = 0
        super().event(event)
        while self.due:
            self.ask(DELETE, NONE, wire.number(self.due.pop(0)))

    # what doesn't reach the server

    def data(self, conn, head, payload):
        upload = self.uploads.get((conn, head.channel))
        if upload is None:
            super().data(conn, head, payload)
        elif head.offset == 0 and head.flags & 0xFF == 0:
            upload.bytes = (upload.bytes + payload)[: upload.length]

    def packet(self, conn, packet):
        client, number = self.clients[conn], strict.number_of(packet)
        if not client.known or number not in SAMPLER_NUMBERS:
            return super().packet(conn, packet)
        values, fault = strict.read(packet, [NUMBER, NUMBER] + [kind for _, kind in FIELDS[number]])
        if fault:
            return self.end(conn, 1, fault[0], client.gone - len(packet) + fault[1])
        asked = dict(zip((name for name, _ in FIELDS[number]), values[2:]))
        act = {15: self.create_upload, 16: self.delete_upload, 17: self.finish_upload, 18: self.play_sample, 19: self.remove_sample}[number]
        code, fields = act(conn, asked)
        return self.error(conn, values[1], code) if code else self.send(conn, REPLY, values[1], fields)

    # the commands: each answers a code, or None and the fields of its reply

    def create_upload(self, conn, asked):
        spec, positions, length = asked["spec"], asked["map"], asked["length"]
        if not asked["name"] or self.cannot_be(spec, positions, [0]):
            return INVALID, b""
        if spec[0] in (5, 6):
            return NOTSUPPORTED, b""
        if length == 0 or length % wire.frame_size(spec):
            return INVALID, b""
        number = FIRST_UPLOAD + self.made[conn]
        if length > LONGEST or sum(of == conn for of, _ in self.uploads) >= MOST_UPLOADS or number == NONE:
            return TOOLARGE, b""
        self.uploads[conn, number] = Upload(asked["name"], spec, positions, length)
        self.made[conn] += 1
        return None, wire.number(number) + wire.number(length)

    def delete_upload(self, conn, asked):
        return NOENTITY if self.uploads.pop((conn, asked["stream"]), None) is None else None, b""

    def finish_upload(self, conn, asked):
        upload = self.uploads.get((conn, asked["stream"]))
        if upload is None or len(upload.bytes) < upload.length:
            return BADSTATE if upload else NOENTITY, b""
        others = [sample for name, sample in kept(self.changes).items() if name != upload.name]
        if len(others) >= MOST_SAMPLES or upload.length + sum(sample.length for sample in others) > LONGEST_IN_ALL:
            return TOOLARGE, b""
        self.changes.append((upload.name, upload))
        del self.uploads[conn, asked["stream"]]
        return None, b""

    def remove_sample(self, conn, asked):
        if asked["name"] not in kept(self.changes):
            return NOENTITY, b""
        self.changes.append((asked["name"], None))
        return None, b""

    def play_sample(self, conn, asked):
        sample = kept(self.changes).get(asked["name"])
        if sample is None:
            return NOENTITY, b""
        if LOUDEST < asked["volume"] < NONE:
            return INVALID, b""
        if len(self.plays) >= MOST_PLAYS:
            return TOOLARGE, b""
        if self.clients[HIDDEN].ended:
            return BADSTATE, b""
        self.create(sample, asked)
        command, fields = self.answered
        if command == ERROR:
            return fields.number(), b""
        stream, played = fields.number(), fields.number()
        self.plays.append(stream)
        self.begun += 1
        self.write(wire.frame_of(stream, 0, 0, sample.bytes))
        self.ask(DRAIN, stream, wire.number(stream))
        return None, wire.number(played)

    def create(self, sample, asked):
        """The stream of a play: nine bools after its volume, and seven of later versions, of which the first says that the volume is set."""
        volume = FULL if asked["volume"] == NONE else asked["volume"]
        kind = [wire.spec(sample.spec), wire.channel_map(sample.positions), wire.number(asked["index"]), wire.text(asked["sink"])]
        sizes = [wire.number(4_194_304), wire.flag(False), *map(wire.number, (sample.length, NONE, sample.length, 0))]
        later = [wire.flag(at == 0) for at in range(7)]
        self.ask(CREATE, NONE, *kind, *sizes, wire.volume([volume]), wire.flag(False) * 9, wire.properties([]), *later)


def played(session):
    """The server at the end of a session."""
    cookie, sinks, events, _ = read_session(session)
    server = Cached(cookie, sinks)
    for event in events[:-1]:
        server.event(event)
    return server


def reckoned(session):
    return bytes(played(session).said) + b"\0"


def thrown_by(words):
    """The session that the words ask for, or None where they ask for none."""
    if len(words) == 3 and words[0] == "--dice":
        return throw(int(words[1]), int(words[2]), Cached)
    wholes = {"--fronts": thrown_samplers, "--crowded": crowded, "--largest": largest}
    return wholes[words[0]]() if len(words) == 1 and words[0] in wholes else None


def main(words):
    session = thrown_by(words)
    if session is not None:
        sys.stdout.write(session)
        return 0
    if len(words) != 1:
        print(__doc__, file=sys.stderr)
        return 2
    with open(words[0], encoding="utf-8") as file:
        session = make(file.read())
    sys.stdout.write(output.show(reckoned(session), read_session(session))[0])
    return 0


if __name__ == "__main__":
    sys.exit(main(sys.argv[1:]))
