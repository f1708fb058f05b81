"""A session's text made into its bytes, line by line."""

import math
from functools import lru_cache

import asking
import packets
import waves
import wire
from recording import FORMS, ONE, SINK_FORMATS, TWO, Scene, SinkSpec, spelled_bytes, spelled_event, spelled_header, spelled_turn
from words import LONGEST, SAMPLES, Words, Wrong, hex_of, lines_of, number_of, unquoted, words_of


class Maker:
    """Makes a session, line by line. Names of files that its lines have begin in a folder."""

    def __init__(self, folder):
        self.scene, self.folder = Scene(), folder
        self.made = bytearray()
        self.form, self.piece = ONE, ONE.piece
        self.front = 0  # how many bytes of the header the lines before the first sink make
        self.said = False
        self.begun = False
        self.ended = False

    def line(self, words):
        word = words.take("a word")
        if self.ended:
            raise Wrong("nothing may follow the end")
        if word == "form":
            self.choose(words)
        elif word in ("cookie", "sink"):
            if self.begun:
                raise Wrong(f"{word} belongs before the first event")
            self.cookie(words) if word == "cookie" else self.sink(words)
        else:
            if not self.begun and word != "split":
                self.begin()
            self.event(word, words)
        words.end()
        self.said = True

    def count(self):
        """How many bytes are made; of the header, which is spelled as a whole, as many as its lines make up to here."""
        return len(self.made) if self.begun else len(self.header()) if self.scene.sinks else self.front

    def header(self):
        return spelled_header(self.scene.cookie, self.scene.sinks, self.form)

    def begin(self):
        if not self.scene.sinks:
            raise Wrong("a session has at least one sink before its first event")
        self.made += self.header()
        self.begun = True

    def choose(self, words):
        if self.said:
            raise Wrong("form belongs before all other lines")
        self.form = FORMS[number_of(words.take("a form"), "a form", 1, len(FORMS)) - 1]
        self.front, self.piece = 4, self.form.piece

    def cookie(self, words):
        cookie = hex_of(words)
        if len(cookie) != 256:
            raise Wrong(f"a cookie has 256 bytes, and this one has {len(cookie)}")
        self.scene.cookie, self.front = cookie, 260

    def sink(self, words):
        name = unquoted(words.take("the sink's name"))
        if not 1 <= len(name) <= 64 or not all(0x21 <= byte <= 0x7E for byte in name) or name[:1] == b"@":
            raise Wrong("a sink's name has 1 to 64 printable ASCII letters without blanks, the first of them not @")
        if any(sink.name == name for sink in self.scene.sinks) or len(self.scene.sinks) == 16:
            raise Wrong("there are at most 16 sinks, and each has a name of its own")
        code, channels, rate = packets.hear_spec(words)
        if code not in SINK_FORMATS:
            raise Wrong(f"a sink can't have the format {wire.format_word(code)}")
        number_of(str(channels), "the count of channels", 1, 32)
        number_of(str(rate), "a sink's rate", 1, 192_000)
        words.wants("map")
        positions = packets.hear_list(words, "a position", 50)
        if len(positions) != channels:
            raise Wrong(f"the map has {len(positions)} positions for {channels} channels")
        words.wants("guard")
        guard = number_of(words.take("the guard"), "the guard", 0, 65_536)
        words.wants("depth")
        depth = number_of(words.take("the depth"), "the depth", 1, 65_536)
        if guard > depth:
            raise Wrong(f"the guard of {guard} frames is above the depth of {depth}")
        self.scene.sinks.append(SinkSpec(name, (code, channels, rate), positions, guard, depth))

    def event(self, word, words):
        if word == "end":
            self.made.append(0)
            self.ended = True
        elif word == "split":
            none, most = words.takes("none"), self.form.piece
            self.piece = most if none else number_of(words.take("a count"), "a piece's bytes", 1, most)
        elif word in ("connect", "close", "cut"):
            conn = connection(words)
            self.made += spelled_event(({"connect": 1, "close": 3, "cut": 4}[word], conn), self.form)
            if word == "connect":
                self.scene.connect(conn)
        elif word in ("turn", "collect"):
            sink, most = self.sink_number(words), self.form.greatest()
            frames = number_of(words.take("the frames"), "a count of frames", 0, most) if word == "turn" else None
            words.wants("take")
            every = words.takes("all")
            taken = asking.waiting(bytes(self.made), sink, frames, self.form) if every else number_of(words.take("a count"), "what is taken", 0, most)
            self.made += spelled_turn(sink, frames, taken, self.form)
        elif word == "stop":
            if self.form is not TWO:
                raise Wrong("a session of form 1 has no stop: its first line says `form 2`")
            self.made += spelled_event((7, self.sink_number(words)), self.form)
        elif word == "bytes":
            conn = connection(words)
            words.takes("hex")
            self.cut(conn, hex_of(words))
        elif word == "upload" and "from" in waves.places_of(words.words[words.at :]):
            fields = words.rest()
            stream = self.scene.next_upload(connection(Words(fields[:1])))
            for line in waves.kept(fields, self.folder, stream):
                self.frame(line[0], Words(line[1:]))
        else:
            self.frame(word, words)

    def frame(self, word, words):
        conn, frame = heard_frame(word, words, self.scene)
        self.cut(conn, frame)
        self.scene.saw(conn, frame)

    def sink_number(self, words):
        word = words.take("a sink")
        if word.startswith("@"):
            return number_of(word[1:], "a sink's number", 0, 255)
        name = unquoted(word)
        for at, sink in enumerate(self.scene.sinks):
            if sink.name == name:
                return at
        raise Wrong(f"no sink is named {word}")

    def cut(self, conn, data):
        for at in range(0, max(len(data), 1), self.piece):
            self.made += spelled_bytes(conn, data[at : at + self.piece], self.form)


def connection(words):
    return number_of(words.take("a connection"), "a connection")


def heard_frame(word, words, scene):
    """The connection and the frame of a line whose first word was taken."""
    if word not in packets.COMMANDS and word not in ("data", "packet"):
        raise Wrong(f"{word} begins no line")
    conn = connection(words)
    if word == "data":
        frame = heard_data(words, scene, conn)
    elif word == "packet":
        words.takes("hex")
        frame = wire.packet_frame(hex_of(words))
    else:
        frame = wire.packet_frame(packets.hear_command(word, words, scene, conn))
    words.end()
    if not 20 < len(frame) <= 20 + LONGEST:
        raise Wrong(f"a frame carries 1 to {LONGEST} bytes, and this one {len(frame) - 20}")
    return conn, frame


def heard_data(words, scene, conn):
    words.wants("stream")
    stream = number_of(words.take("a stream"), "a stream", 0, wire.CONTROL - 1)
    offset, flags, spec = 0, 0, scene.spec(conn, stream)
    while True:
        if words.takes("offset"):
            offset = number_of(words.take("the offset"), "an offset in bytes", -(1 << 63), (1 << 63) - 1)
        elif words.takes("seek"):
            seek = words.take("a seek mode")
            if seek not in wire.SEEKS:
                raise Wrong(f"{seek} is no seek mode: there are {', '.join(wire.SEEKS)}")
            flags = wire.SEEKS.index(seek)
        elif words.takes("flags"):
            flags = number_of(words.take("the flags"), "the flags")
        elif words.takes("as"):
            spec = packets.hear_spec(words)
        else:
            break
    if words.takes("hex"):
        payload = hex_of(words)
    elif spec is None:
        raise Wrong(f"connection {conn} has made no stream {stream}: say its format, as in `as s16le 1 48000`")
    else:
        payload = heard_sound(words, spec, scene.sent.get((conn, stream), 0))
    return wire.frame_of(stream, offset % (1 << 64), flags, payload)


def heard_sound(words, spec, sent):
    """The bytes of samples and tones; `sent` frames of the stream went before them."""
    size, sound = wire.frame_size(spec), bytearray()
    if not size or spec[0] in wire.FLOATS:
        raise Wrong(f"samples of format {wire.format_word(spec[0])} can't be said in numbers: say them after hex")
    while words.peek() is not None:
        if words.takes("tone"):
            sound += heard_tone(words, spec, sent + len(sound) // size)
            continue
        frame, count = heard_samples(words.take("samples"), spec)
        if len(sound) + count * size > LONGEST:
            raise Wrong(f"a frame carries at most {LONGEST} bytes")
        sound += frame * count
    return bytes(sound)


@lru_cache(1 << 16)
def heard_samples(word, spec):
    """A frame of sound, and how many of it."""
    said = SAMPLES.fullmatch(word)
    if said is None:
        raise Wrong(f"{word} isn't samples, such as 1000, 1000x100 or 5/-5x100")
    values, count = list(map(int, said.group(1).split("/"))), int(said.group(2) or 1)
    values = values * spec[1] if len(values) == 1 else values
    if len(values) != spec[1] or count < 1:
        raise Wrong(f"{word} isn't frames of {spec[1]} channels")
    return b"".join(wire.sample_bytes(spec[0], value) for value in values), count


def heard_tone(words, spec, start):
    """A sine in all channels, in phase with what the stream was sent before."""
    hertz = number_of(words.take("a frequency"), "a frequency", 1, 96_000)
    words.wants("amplitude")
    height = number_of(words.take("an amplitude"), "an amplitude", 0, wire.bounds(spec[0])[1])
    rate = number_of(str(spec[2]), "the rate of a stream with a tone", 1)
    words.wants("frames")
    count = number_of(words.take("a count of frames"), "a count of frames", 1, LONGEST // wire.frame_size(spec))
    turns = [(start + at) * hertz % rate / rate for at in range(count)]
    values = [round(height * math.sin(2 * math.pi * turn)) for turn in turns]
    return b"".join(wire.sample_bytes(spec[0], value) * spec[1] for value in values)


def made_lines(text, folder):
    """The session of a text, and for each line that makes bytes of it (its number, the line, how many bytes there are then)."""
    maker, number, lines = Maker(folder), 0, []
    for number, line in lines_of(text):
        try:
            words = Words(words_of(line))
            if words.peek() is not None:
                maker.line(words)
                lines.append((number, line, maker.count()))
        except Wrong as wrong:
            raise Wrong(f"{number}: {wrong}") from None
    if not maker.ended:
        raise Wrong(f"{number}: the session has no end")
    return bytes(maker.made), lines


def make(text, folder="."):
    """The session of a text; names of files begin in the folder."""
    return made_lines(text, folder)[0]


def line_at(text, offset, folder="."):
    """The number and the words of the line that makes the byte at an offset."""
    session, lines = made_lines(text, folder)
    for number, line, count in lines:
        if offset < count:
            return number, " ".join(words_of(line))
    raise Wrong(f"the session has {len(session)} bytes, and so none at {offset}")
