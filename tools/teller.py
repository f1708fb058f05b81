"""A session's bytes told as a text that makes them again."""

import packets
import wire
from maker import heard_frame
from recording import ONE, Scene, read_session
from words import Words, Wrong, hex_words, line_of, quoted, words_of


class Teller:
    """Tells a session, event by event."""

    def __init__(self, session):
        self.scene = Scene()
        self.scene.cookie, self.scene.sinks = session.cookie, session.sinks
        self.events, self.form = session.events, session.form
        self.streams = {}
        self.piece = self.form.piece
        self.text = []

    def say(self, *words):
        self.text.append(line_of(words))

    def tell(self):
        if self.form is not ONE:
            self.say("form", str(self.form.number))
        if self.scene.cookie != bytes(256):
            self.say("cookie", *hex_words(self.scene.cookie))
        for sink in self.scene.sinks:
            self.say(*sink.words())
        at = 0
        while at < len(self.events):
            at += self.event(at)
        return "".join(self.text)

    def event(self, at):
        """Tells what begins with this event, and answers how many events that is."""
        event = self.events[at]
        if event[0] == 2:
            return self.frame(at) or self.raw(event[1], event[2])
        if event[0] == 0:
            self.say("end")
        elif event[0] in (5, 6):
            name = self.sink_word(event[1])
            front = ["collect", name] if event[2] is None else ["turn", name, str(event[2])]
            self.say(*front, "take", str(event[3]))
        elif event[0] == 7:
            self.say("stop", self.sink_word(event[1]))
        else:
            self.say({1: "connect", 3: "close", 4: "cut"}[event[0]], str(event[1]))
            if event[0] == 1:
                self.scene.connect(event[1])
                self.streams[event[1]] = wire.Stream()
        return 1

    def sink_word(self, sink):
        sinks = self.scene.sinks
        return quoted(sinks[sink].name) if sink < len(sinks) else f"@{sink}"

    def frame(self, at):
        """Tells the frame that begins with this event, if just it is cut into events of one length."""
        conn, pieces = self.events[at][1], []
        if not self.streams.setdefault(conn, wire.Stream()).at_frame():
            return 0
        size, length = 0, None
        while length is None or size < length:
            event = self.events[at + len(pieces)]
            if event[0] != 2 or event[1] != conn or not event[2]:
                return 0
            if pieces and not len(event[2]) <= len(pieces[-1]) == len(pieces[0]):
                return 0
            pieces.append(event[2])
            size += len(event[2])
            if length is None and size >= 20:
                length = 20 + int.from_bytes(b"".join(pieces)[:4], "big")
        if size != length:
            return 0
        frame = b"".join(pieces)
        said = self.words_of_frame(conn, frame)
        if said is None:
            return 0
        self.split(len(pieces), len(pieces[0]))
        self.say(*said)
        self.feed(conn, frame)
        self.scene.saw(conn, frame)
        return len(pieces)

    def words_of_frame(self, conn, frame):
        """Words that make just this frame, or None."""
        for said in (self.close_words(conn, frame), self.packet_words(conn, frame)):
            if said is None:
                continue
            words = Words(words_of(" ".join(said)))
            try:
                heard = heard_frame(words.take("a word"), words, self.scene)
            except Wrong:
                continue
            if heard == (conn, frame):
                return said
        return None

    def close_words(self, conn, frame):
        """The words of a command, or of data with its samples."""
        descriptor, payload = wire.Descriptor(frame), frame[20:]
        if descriptor.channel == wire.CONTROL:
            return packets.say_packet(payload, self.scene, conn)
        spec = self.scene.spec(conn, descriptor.channel)
        size = spec and spec[0] not in wire.FLOATS and wire.frame_size(spec)
        if not size or len(payload) % size:
            return None
        return data_words(conn, descriptor) + wire.samples_words(spec, payload)

    def packet_words(self, conn, frame):
        """The words of any packet or data, in hexadecimal."""
        descriptor, payload = wire.Descriptor(frame), frame[20:]
        if descriptor.channel == wire.CONTROL:
            return ["packet", str(conn), "hex", *hex_words(payload)]
        return data_words(conn, descriptor) + ["hex", *hex_words(payload)]

    def split(self, count, size):
        """Says how the next bytes are cut, where that isn't as the last ones were."""
        if count == 1 and size > self.piece:
            self.piece = self.form.piece
            self.say("split", "none")
        elif count > 1 and size != self.piece:
            self.piece = size
            self.say("split", "none" if size == self.form.piece else str(size))

    def raw(self, conn, data):
        self.split(1, len(data))
        self.say("bytes", str(conn), *(["hex"] if data else []), *hex_words(data))
        self.feed(conn, data)
        return 1

    def feed(self, conn, data):
        stream = self.streams.setdefault(conn, wire.Stream())
        known = stream.fault
        stream.feed(data)
        if stream.fault != known:
            self.text.append(f"# the server ends connection {conn} here: {stream.fault}\n")


def data_words(conn, descriptor):
    said = ["data", str(conn), "stream", str(descriptor.channel)]
    if descriptor.offset:
        said += ["offset", str(descriptor.offset)]
    if descriptor.flags > 3:
        return said + ["flags", hex(descriptor.flags)]
    return said + (["seek", wire.SEEKS[descriptor.flags]] if descriptor.flags else [])


def show(data):
    """The text of a session."""
    return Teller(read_session(data)).tell()
