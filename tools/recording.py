"""Recorded sessions as bytes: the header, the events, and the scene that they set."""

from typing import NamedTuple

import packets
import wire
from words import Wrong, quoted

SINK_FORMATS = (0, 3, 4, 7, 8, 9, 10, 11, 12)
FIRST_UPLOAD = 0x80000000  # the number of a connection's first upload


class Form(NamedTuple):
    """What sets the two forms of a session apart."""

    number: int
    size: int  # the bytes of a count and of a length
    piece: int  # the most bytes of one Bytes event
    last: int  # the greatest kind of an event

    def magic(self):
        return b"PRS%d" % self.number

    def greatest(self):
        """The greatest count."""
        return (1 << 8 * self.size) - 1

    def count(self, value):
        return value.to_bytes(self.size, "big")


ONE, TWO = FORMS = Form(1, 4, 65_536, 6), Form(2, 8, 1_048_576, 7)


class Session(NamedTuple):
    """A session: `events` has the kind and the fields of each event, the end byte's too."""

    cookie: bytes
    sinks: list
    events: list
    form: Form = ONE


class SinkSpec:
    """A sink of the header: guard and depth in frames."""

    def __init__(self, name, spec, positions, guard, depth):
        self.name = name
        self.spec = spec
        self.positions = positions
        self.guard = guard
        self.depth = depth

    def spelled(self):
        code, channels, rate = self.spec
        front = bytes([len(self.name)]) + self.name + bytes([code, channels]) + rate.to_bytes(4, "big")
        return front + bytes(self.positions) + self.guard.to_bytes(4, "big") + self.depth.to_bytes(4, "big")

    def words(self):
        positions = ",".join(map(str, self.positions))
        said = ["sink", quoted(self.name), *packets.say_spec(self.spec), "map", positions]
        return said + ["guard", str(self.guard), "depth", str(self.depth)]


def spelled_header(cookie, sinks, form=ONE):
    return form.magic() + cookie + bytes([len(sinks)]) + b"".join(sink.spelled() for sink in sinks)


def spelled_bytes(conn, data, form=ONE):
    return b"\x02" + conn.to_bytes(4, "big") + form.count(len(data)) + data


def spelled_turn(sink, frames, taken, form=ONE):
    """A Turn, or a Collect where there is no count of frames."""
    front = bytes([6, sink]) if frames is None else bytes([5, sink]) + form.count(frames)
    return front + form.count(taken)


def spelled_event(event, form):
    """An event of a session, as `read_event` gives it, or the end byte."""
    if event[0] == 2:
        return spelled_bytes(*event[1:], form)
    if event[0] in (5, 6):
        return spelled_turn(*event[1:], form)
    return bytes(event) if event[0] in (0, 7) else bytes([event[0]]) + event[1].to_bytes(4, "big")


class Place:
    """Where a session is read."""

    def __init__(self, data):
        self.data = data
        self.at = 0

    def take(self, count):
        if self.at + count > len(self.data):
            raise Wrong(f"refused at {len(self.data)}: truncated")
        self.at += count
        return self.data[self.at - count : self.at]

    def number(self, size=4):
        return int.from_bytes(self.take(size), "big")

    def field(self, read, keeps):
        """A field of the header, refused at its first byte where it breaks its rule."""
        start = self.at
        value = read()
        if not keeps(value):
            raise Wrong(f"refused at {start}: header")
        return value


def read_sink(place, names):
    length = place.field(lambda: place.number(1), lambda n: 1 <= n <= 64)
    name = place.field(
        lambda: place.take(length),
        lambda n: all(0x21 <= byte <= 0x7E for byte in n) and n[:1] != b"@" and n not in names,
    )
    code = place.field(lambda: place.number(1), lambda n: n in SINK_FORMATS)
    channels = place.field(lambda: place.number(1), lambda n: 1 <= n <= 32)
    rate = place.field(place.number, lambda n: 1 <= n <= 192_000)
    positions = [place.field(lambda: place.number(1), lambda n: n <= 50) for _ in range(channels)]
    guard = place.number()
    depth = place.field(place.number, lambda n: 1 <= n <= 65_536 and guard <= n)
    return SinkSpec(name, (code, channels, rate), positions, guard, depth)


def read_header(place):
    """The form, the cookie and the sinks."""
    forms = [form for form in FORMS if form.magic().startswith(place.data[:4])]
    if not forms:
        raise Wrong("refused at 0: magic")
    place.take(4)
    cookie, sinks = place.take(256), []
    for _ in range(place.field(lambda: place.number(1), lambda n: 1 <= n <= 16)):
        sinks.append(read_sink(place, [sink.name for sink in sinks]))
    return forms[0], cookie, sinks


def read_event(place, form):
    """An event of a session of this form: its kind and its fields; a Collect has None for frames."""
    start, kind = place.at, place.number(1)
    if kind > form.last:
        raise Wrong(f"refused at {start}: kind {kind}")
    if kind == 0:
        if place.at < len(place.data):
            raise Wrong(f"refused at {place.at}: trailing")
        return (0,)
    if kind == 5:
        return 5, place.number(1), place.number(form.size), place.number(form.size)
    if kind == 6:
        return 6, place.number(1), None, place.number(form.size)
    if kind == 7:
        return 7, place.number(1)
    conn = place.number()
    if kind != 2:
        return kind, conn
    length = place.number(form.size)
    if length > form.piece:
        raise Wrong(f"refused at {start}: too long {length}")
    return 2, conn, place.take(length)


def read_session(data):
    """What a session says; Wrong says where and why it is none."""
    place = Place(data)
    form, cookie, sinks = read_header(place)
    events = []
    while not events or events[-1][0] != 0:
        events.append(read_event(place, form))
    return Session(cookie, sinks, events, form)


class Scene:
    """What the lines of a session speak of: the cookie, the sinks, and each connection's version, tags and streams.

    The streams and the uploads of a connection are counted as if the server took each CREATE_PLAYBACK_STREAM and CREATE_UPLOAD_STREAM."""

    def __init__(self):
        self.cookie = bytes(256)
        self.sinks = []
        self.tags = {}
        self.streams = {}
        self.uploads = {}
        self.sent = {}
        self.spoken = packets.Spoken()

    def connect(self, conn):
        self.spoken.connect(conn)
        self.tags[conn] = 0
        self.streams[conn], self.uploads[conn] = [], []

    def tag(self, conn):
        return self.tags.get(conn, 0)

    def version(self, conn):
        return self.spoken.of(conn)

    def spec(self, conn, stream):
        """The format of a stream, or of an upload."""
        made, at = (self.streams, stream) if stream < FIRST_UPLOAD else (self.uploads, stream - FIRST_UPLOAD)
        specs = made.get(conn, [])
        return specs[at] if at < len(specs) else None

    def next_upload(self, conn):
        """The number that the next upload of a connection gets."""
        return FIRST_UPLOAD + len(self.uploads.get(conn, []))

    def sink_named(self, index, name):
        for at, sink in enumerate(self.sinks):
            if at == index or sink.name == name:
                return sink
        return self.sinks[0]

    def saw(self, conn, frame):
        """Keeps what a frame says that later lines rest on."""
        descriptor, payload = wire.Descriptor(frame), frame[20:]
        if descriptor.channel != wire.CONTROL:
            spec = self.spec(conn, descriptor.channel)
            if spec and wire.frame_size(spec):
                key = (conn, descriptor.channel)
                self.sent[key] = self.sent.get(key, 0) + len(payload) // wire.frame_size(spec)
            return
        if payload[:1] == b"L" and payload[5:6] == b"L" and len(payload) >= 10:
            self.tags[conn] = int.from_bytes(payload[6:10], "big") + 1 & 0xFFFFFFFF
        read = self.spoken.hear(conn, payload, self.cookie)
        if read and read[0] == "create":
            self.create(conn, read[2])
        elif read and read[0] == "upload":
            self.sent.pop((conn, self.next_upload(conn)), None)
            self.uploads.setdefault(conn, []).append(read[2][1])

    def create(self, conn, values):
        names = [name for name, _, _ in packets.COMMANDS["create"][1]]
        code, channels, rate = values[0]
        sink = self.sink_named(values[names.index("index")], values[names.index("sink")])
        code = sink.spec[0] if values[names.index("fix_format")] else code
        channels = sink.spec[1] if values[names.index("fix_channels")] else channels
        rate = sink.spec[2] if values[names.index("fix_rate")] else rate
        streams = self.streams.setdefault(conn, [])
        self.sent.pop((conn, len(streams)), None)
        streams.append((code, channels, rate))
