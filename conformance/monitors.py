#!/usr/bin/env python3
"""Reckons what `replay --monitor` must give, over the reckoner of `replay`, and shares no code with the program.

  conformance/monitors.py SESSION.session > SESSION.output
  conformance/monitors.py --sieved SESSION.session > SIEVED.session   the events that reach the server, as a session
  conformance/monitors.py --dice NUMBER TURNS > SESSION.session       record streams that come and go on three sinks, with dice
  conformance/monitors.py --many > SESSION.session                    as many record streams as there can be, of two connections
  conformance/monitors.py --fronts > SESSION.session                  the mode's commands cut off at each byte, and with a byte too many

A command of record streams, from a client whose AUTH was taken, never reaches the server: it is answered here. What a sink plays is
sent to each of its record streams after the turn."""

import random
import sys

import reckon
import strict
import wire
from fronts import thrown_recorders
from handlers import usec
from maker import make
from packets import NEWEST, OLDEST
from recording import read_session, spelled_bytes, spelled_event, spelled_header
from server import RECORDER_NUMBERS
from strict import FLAG, MAP, NUMBER, PROPERTIES, SPEC, TEXT
from teller import show
from throws import SINKS, thrown_sinks
from words import NONE

import output

INVALID, NOENTITY, TOOLARGE, NOTSUPPORTED = 3, 5, 18, 19
MOST_STREAMS = 64  # of one connection
LONGEST_FRAGMENT, LONGEST_QUEUE = 65_536, 4_194_304  # bytes
ZERO_LENGTH = bytes(4) + b"\xff" * 4 + bytes(12)  # the frame that ends its connection in place of one whose fields have a fault
HEAD = [NUMBER, NUMBER]
# The fields of CREATE_RECORD_STREAM at version 13, and what later versions add.
NAMES = [
    ("spec", SPEC), ("map", MAP), ("index", NUMBER), ("source", TEXT), ("maxlength", NUMBER), ("corked", FLAG), ("fragsize", NUMBER),
    ("no_remap", FLAG), ("no_remix", FLAG), ("fix_format", FLAG), ("fix_rate", FLAG), ("fix_channels", FLAG), ("no_move", FLAG),
    ("variable_rate", FLAG), ("peak_detect", FLAG), ("adjust_latency", FLAG), ("list", PROPERTIES), ("direct_input", NUMBER),
]
ADDED = [(14, "early_requests"), (15, "dont_inhibit_auto_suspend"), (15, "fail_on_suspend")]


def fields_at(version):
    return NAMES + [(name, FLAG) for since, name in ADDED if since <= version]


class Recorder:
    """A record stream of a connection on a sink."""

    def __init__(self, conn, number, sink, fragsize):
        self.conn, self.number, self.sink, self.fragsize = conn, number, sink, fragsize


class Monitored(reckon.Server):
    """Plays a session with record streams. `sieved` has the events that reach the server."""

    def __init__(self, cookie, sinks):
        super().__init__(cookie, sinks)
        self.recorders = []  # in order of creation
        self.made, self.outputs = {}, 0  # how many each connection made, and all together
        self.sieved = []

    def event(self, event):
        if event[0] == 1:
            self.made[event[1]] = 0
        if event[0] != 2:
            self.sieved.append(event)
        before = len(self.said)
        super().event(event)
        if event[0] == 5 and self.said[before : before + 2] == bytes([3, event[1]]):
            self.record(event[1], bytes(self.said[before + 6 :]))

    def record(self, sink, sound):
        """What a sink played, for each of its record streams."""
        for it in self.recorders:
            if it.sink == sink:
                for at in range(0, len(sound), it.fragsize):
                    frame = wire.frame_of(it.number, 0, 0, sound[at : at + it.fragsize])
                    self.said += b"\1" + it.conn.to_bytes(4, "big") + len(frame).to_bytes(4, "big") + frame

    def leave(self, conn):
        super().leave(conn)
        self.recorders = [it for it in self.recorders if it.conn != conn]

    # what reaches the server

    def hear(self, conn, data):
        """A descriptor that breaks a rule reaches the server once its 20 bytes are there."""
        super().hear(conn, data)
        head = bytes(self.clients[conn].bytes[:20])
        if len(head) == 20 and wire.Descriptor(head).fault():
            self.sieved.append((2, conn, head))

    def data(self, conn, head, payload):
        self.sieved.append((2, conn, wire.frame_of(head.channel, head.offset % (1 << 64), head.flags & 0xFF, payload)))
        super().data(conn, head, payload)

    def packet(self, conn, packet):
        client, number = self.clients[conn], strict.number_of(packet)
        if client.known and number in RECORDER_NUMBERS:
            return self.own(conn, client, number, packet)
        self.sieved.append((2, conn, wire.packet_frame(packet)))
        return super().packet(conn, packet)

    # the mode's own commands

    def own(self, conn, client, number, packet):
        names = fields_at(client.version) if number == 5 else [("stream", NUMBER)]
        values, fault = strict.read(packet, HEAD + [kind for _, kind in names])
        if fault:
            self.sieved.append((2, conn, ZERO_LENGTH))
            return self.end(conn, 1, fault[0], client.gone - len(packet) + fault[1])
        asked = dict(zip((name for name, _ in names), values[2:]))
        return (self.create_record if number == 5 else self.delete_record)(conn, values[1], asked)

    def create_record(self, conn, tag, asked):
        sink, code = self.source(asked["index"], asked["source"]), self.refusal(conn, asked)
        if code:
            return self.error(conn, tag, code)
        spec = sink.spec.spec
        size = wire.frame_size(spec)
        fragsize = max(min(asked["fragsize"], LONGEST_FRAGMENT) // size * size, size)
        it = Recorder(conn, self.made[conn], sink.number, fragsize)
        numbers = it.number, self.outputs, min(asked["maxlength"], LONGEST_QUEUE), fragsize
        self.recorders.append(it)
        self.made[conn] += 1
        self.outputs += 1
        said = b"".join(map(wire.number, numbers)) + wire.spec(spec) + wire.channel_map(sink.spec.positions)
        said += wire.number(sink.number) + wire.text(sink.spec.name + b".monitor") + wire.flag(False) + usec(0)
        return self.send(conn, 2, tag, said)

    def source(self, index, name):
        """The sink whose monitor is asked for, or None: the first one's, where neither index nor name is said."""
        if name is not None:
            return next((sink for sink in self.sinks if sink.spec.name + b".monitor" == name), None)
        index = 0 if index == NONE else index
        return self.sinks[index] if index < len(self.sinks) else None

    def refusal(self, conn, asked):
        """The code of the first refusal, or None."""
        (code, channels, rate), positions, sink = asked["spec"], asked["map"], self.source(asked["index"], asked["source"])
        if code > 12 or channels == 0 or not 1 <= rate <= 192_000 or len(positions) != channels or max(positions) > 50:
            return INVALID
        if asked["index"] != NONE and asked["source"] is not None:
            return INVALID
        if sink is None:
            return NOENTITY
        own_code, own_channels, own_rate = sink.spec.spec
        fits = asked["fix_format"] or code == own_code
        fits = fits and (asked["fix_rate"] or rate == own_rate)
        fits = fits and (asked["fix_channels"] or (channels, positions) == (own_channels, list(sink.spec.positions)))
        other = asked["variable_rate"] or asked["peak_detect"] or asked["corked"] or asked["direct_input"] != NONE
        if code in (5, 6) or other or not fits:
            return NOTSUPPORTED
        last = NONE in (self.made[conn], self.outputs)
        if sum(it.conn == conn for it in self.recorders) >= MOST_STREAMS or last:
            return TOOLARGE
        return None

    def delete_record(self, conn, tag, asked):
        kept = [it for it in self.recorders if (it.conn, it.number) != (conn, asked["stream"])]
        if len(kept) == len(self.recorders):
            return self.error(conn, tag, NOENTITY)
        self.recorders = kept
        return self.send(conn, 2, tag)


def played(session):
    """The server at the end of a session."""
    cookie, sinks, events, _ = read_session(session)
    server = Monitored(cookie, sinks)
    for event in events[:-1]:
        server.event(event)
    return server


def reckoned(session):
    return bytes(played(session).said) + b"\0"


def sieved(session):
    """The session of what reaches the server: an event for each frame, without the mode's own. One of a frame is within any form's limit."""
    cookie, sinks, _, form = read_session(session)
    made = bytearray(spelled_header(cookie, sinks, form))
    for event in played(session).sieved:
        if event[0] != 2:
            made += spelled_event(event, form)
            continue
        for at in range(0, len(event[2]), form.piece):
            made += spelled_bytes(event[1], event[2][at : at + form.piece], form)
    return bytes(made) + b"\0"


# Sessions that are thrown


def throw(number, turns):
    """Six streams of two clients on three sinks, and record streams of three clients that come and go."""
    dice = random.Random(number)
    lines = [line for line in thrown_sinks(number, turns).splitlines() if not line.startswith("#")]
    said = [f"# Thrown with the dice of {number}: record streams of three clients on three sinks, {turns} turns. Its output is conformance/monitors.py's."]
    versions = {1: OLDEST, 2: OLDEST, 3: NEWEST}
    for line in lines:
        if line.startswith("turn"):
            said += [thrown_command(dice, conn, versions[conn]) for conn in (1, 2, 3) if dice.randrange(5) == 0]
            if dice.randrange(40) == 0:
                versions[3] = dice.randrange(OLDEST, NEWEST + 1)
                said += ["close 3", "connect 3", f"auth 3 version {versions[3]}"]
        said.append(line)
        if line.startswith("auth 2"):
            said += ["connect 3", f"auth 3 version {NEWEST}"]
    return "\n".join([*said, ""])


def thrown_command(dice, conn, version):
    """One of the mode's commands, most often one that is taken."""
    if dice.randrange(3) == 0:
        return f"delete-record {conn} stream {dice.randrange(9)}"
    at = dice.randrange(3)
    name, *shape = SINKS[at].split(" guard ")[0].split()
    named = dice.choice((f"index {at}", f"source {name}.monitor", "index 3", "source out")[: dice.choice((2, 2, 4))])
    if dice.randrange(6) == 0:
        shape, named = ["s24be", "1", "96000", "map", "1"], named + " fix_format fix_rate" + dice.choice((" fix_channels", ""))
    size = wire.frame_size((wire.FORMATS.index(SINKS[at].split()[1]), int(SINKS[at].split()[2]), 0))
    size = dice.choice((NONE, NONE, NONE, 0, 7 * size + size // 2, 20 * size))
    more = dice.choice(("", "", " early_requests")) if version > OLDEST else ""
    return f"create-record {conn} {' '.join(shape)} {named} maxlength {dice.choice((0, 5000, NONE))} fragsize {size}{more}"


def many():
    """64 record streams of a connection, and what it is told of more; two connections have 64 each."""
    create = "create-record {} tag {} s16le 1 48000 map 0 fragsize {}"
    lines = ["# A connection has at most 64 record streams at a time: where one is deleted there may be another, whose number is a new one.", f"sink {SINKS[0]}"]
    for conn in (1, 2):
        lines += [f"connect {conn}", f"auth {conn} tag 0 version 13", *(create.format(conn, tag, 2 * tag) for tag in range(1, MOST_STREAMS + 1))]
    lines += ["turn out 0 take 0", "turn out 40 take 0", create.format(1, 65, 2), create.format(1, 66, 2) + " corked", create.format(1, 67, 2) + " index 1"]
    lines += ["delete-record 1 tag 68 stream 10", create.format(1, 69, 2), create.format(1, 70, 2), "delete-record 1 tag 71 stream 64"]
    lines += [*(f"delete-record 1 tag {72 + at} stream {at}" for at in (63, 0, 1)), create.format(1, 75, 60), create.format(2, 65, 2)]
    lines += ["turn out 3 take 0", "close 2", "connect 2", "auth 2 tag 0 version 13", create.format(2, 1, 4), "turn out 3 take 0"]
    return "\n".join([*lines, "end", ""])


def thrown_by(words):
    """The session that the words ask for, or None where they ask for none."""
    if len(words) == 3 and words[0] == "--dice":
        return throw(int(words[1]), int(words[2]))
    return {"--fronts": thrown_recorders, "--many": many}.get(words[0], lambda: None)() if len(words) == 1 else None


def main(words):
    session = thrown_by(words)
    if session is not None:
        sys.stdout.write(session)
        return 0
    sieves = words[:1] == ["--sieved"]
    if len(words) != 1 + sieves:
        print(__doc__, file=sys.stderr)
        return 2
    with open(words[sieves], encoding="utf-8") as file:
        session = make(file.read())
    sys.stdout.write(show(sieved(session)) if sieves else output.show(reckoned(session), read_session(session))[0])
    return 0


if __name__ == "__main__":
    sys.exit(main(sys.argv[1:]))
