"""The commands that clients send, as packets and as words, at each version of the protocol from 13 to 18."""

import re

import wire
from words import (
    NONE, PROPERTY, QUOTED, Words, Wrong, hex_of, hex_words, number_of, number_word, quoted, unquoted,
)
from wire import FORMATS, Items, Unread

SHM, MEMFD = 0x80000000, 0x40000000
OLDEST, NEWEST = 13, 18  # the versions that the server speaks


class Kind:
    """A kind of field: its bytes, its reading, its words, and how they are heard."""

    def __init__(self, spell, read, say, hear, fits=None, what=None):
        self.spell = spell
        self.read = read
        self.say = say
        self.hear = hear
        self.fits = fits  # for a field without a name: whether a word begins it
        self.what = what  # and what stands for its name where it is missing


def hear_list(words, what, most):
    values = [number_of(part, what, 0, most) for part in words.take(what).split(",")]
    if len(values) > 255:
        raise Wrong(f"{what} has at most 255 numbers")
    return values


def hear_text(words, what="a string"):
    said = unquoted(words.take(what))
    if b"\0" in said:
        raise Wrong(f"{what} can't hold a zero byte")
    return said


def format_of(word):
    if word in FORMATS:
        return FORMATS.index(word)
    if not re.fullmatch(r"-?[0-9]+|0x[0-9a-fA-F]+", word):
        raise Wrong(f"{word} is no format: there are {', '.join(FORMATS)}, and numbers")
    return number_of(word, "a format", 0, 255)


def hear_spec(words):
    return (
        format_of(words.take("a format")),
        number_of(words.take("the channels"), "the count of channels", 0, 255),
        number_of(words.take("the rate"), "the rate"),
    )


def say_spec(spec):
    return [wire.format_word(spec[0]), str(spec[1]), str(spec[2])]


def hear_version(words):
    version = number_of(words.take("the version"), "a version")
    for word, bit in (("shm", SHM), ("memfd", MEMFD)):
        version |= bit if words.takes(word) else 0
    return version


def say_version(version):
    low = version & ~(SHM | MEMFD)
    said = [str(low) if low < 0x10000 else hex(low)]
    return said + [word for word, bit in (("shm", SHM), ("memfd", MEMFD)) if version & bit]


def hear_time(words):
    parts = words.take("a time").split(":")
    if len(parts) != 2:
        raise Wrong("a time is SECONDS:MICROSECONDS")
    return tuple(number_of(part, "a time's number") for part in parts)


def hear_switch(words):
    word = words.take("on or off")
    if word not in ("on", "off"):
        raise Wrong(f"on or off should stand where {word} does")
    return word == "on"


def hear_texts(words):
    said = []
    while words.peek() is not None:
        said.append(hear_text(words))
    return said


def is_property(word):
    return PROPERTY.fullmatch(word) is not None


def hear_properties(words):
    pairs = []
    while words.peek() is not None and is_property(words.peek()):
        key, mark, value = PROPERTY.fullmatch(words.take("a property")).groups()
        if mark == "=":
            if "," in QUOTED.sub("", value):
                raise Wrong(f"{value} has a comma: blanks stand between properties, and a comma of a value in quotes")
            data = unquoted(value) + b"\0"
        elif value:
            data = bytes_of_word(value)
        else:
            data = b""
        if b"\0" in unquoted(key):
            raise Wrong("a key can't hold a zero byte")
        pairs.append((unquoted(key), data))
    return pairs


def bytes_of_word(word):
    """The bytes of pieces in hexadecimal, with commas between them."""
    pieces = Words(word.split(","))
    data = hex_of(pieces)
    if pieces.peek() is not None:
        raise Wrong(f"{pieces.peek()} isn't hexadecimal")
    return data


def say_properties(pairs):
    said = []
    for key, value in pairs:
        if value.endswith(b"\0") and b"\0" not in value[:-1]:
            said.append(quoted(key) + "=" + (quoted(value[:-1]) if value[:-1] else ""))
        else:
            said.append(quoted(key) + ":" + ",".join(hex_words(value)))
    return said


def commas(values):
    return [",".join(map(number_word, values))]


NUMBER = Kind(
    wire.number, Items.number, lambda v: [number_word(v)],
    lambda words: number_of(words.take("a number"), "the field"),
)
VERSION = Kind(wire.number, Items.number, say_version, hear_version)
COOKIE = Kind(wire.arbitrary, Items.arbitrary, hex_words, hex_of)
TEXT = Kind(wire.text, Items.text, lambda v: [quoted(v)], hear_text)
TEXTS = Kind(wire.texts, Items.texts, lambda v: list(map(quoted, v)), hear_texts)
SPEC = Kind(wire.spec, Items.spec, say_spec, hear_spec, lambda w: w in FORMATS or w.isdecimal(), "the format")
MAP = Kind(wire.channel_map, Items.map, commas, lambda words: hear_list(words, "a map", 255))
VOLUME = Kind(wire.volume, Items.volume, commas, lambda words: hear_list(words, "a volume", NONE))
TIME = Kind(wire.time, Items.time, lambda v: [f"{v[0]}:{v[1]}"], hear_time)
FLAG = Kind(wire.flag, Items.flag, lambda v: [], lambda words: True)
SWITCH = Kind(
    wire.flag, Items.flag, lambda v: ["on" if v else "off"], hear_switch,
    lambda word: word in ("on", "off"), "on or off",
)
PROPERTIES = Kind(wire.properties, Items.properties, say_properties, hear_properties, is_property)

NEEDED = object()  # the default of a field that must be said


def number(name, default=NEEDED):
    return (name, NUMBER, default)


def flags(names):
    return [(name, FLAG, False) for name in names.split()]


def follows(field):
    """A bool that is on, where it isn't said, just if a line says another field."""
    return lambda scene, said: field in said


LIST = (None, PROPERTIES, [])
STREAM = number("stream")
SINK = [number("index", NONE), ("sink", TEXT, None)]
REMIXING = "no_remap no_remix fix_format fix_rate fix_channels no_move variable_rate muted adjust_latency"
RECORDING = "no_remap no_remix fix_format fix_rate fix_channels no_move variable_rate peak_detect adjust_latency"

# Each command's word with its number and its fields at version 13: the field's name, its kind and what it is where it isn't said.
COMMANDS = {
    "create": (3, [
        (None, SPEC, NEEDED), ("map", MAP, NEEDED), *SINK, number("maxlength", NONE), *flags("corked"),
        number("tlength", NONE), number("prebuf", NONE), number("minreq", NONE), number("syncid", NONE),
        ("volume", VOLUME, [65536]), *flags(REMIXING), LIST,
    ]),
    "delete": (4, [STREAM]),
    "create-record": (5, [
        (None, SPEC, NEEDED), ("map", MAP, NEEDED), number("index", NONE), ("source", TEXT, None), number("maxlength", NONE),
        *flags("corked"), number("fragsize", NONE), *flags(RECORDING), LIST, number("direct_input", NONE),
    ]),
    "delete-record": (6, [STREAM]),
    "auth": (8, [("version", VERSION, NEEDED), ("cookie", COOKIE, lambda scene, said: scene.cookie)]),
    "name": (9, [LIST]),
    "lookup-sink": (10, [("sink", TEXT, None)]),
    "drain": (12, [STREAM]),
    "latency": (14, [STREAM, ("time", TIME, (0, 0))]),
    "upload": (15, [("name", TEXT, None), (None, SPEC, NEEDED), ("map", MAP, NEEDED), number("length"), LIST]),
    "delete-upload": (16, [STREAM]),
    "finish-upload": (17, [STREAM]),
    "play-sample": (18, [*SINK, number("volume", NONE), ("name", TEXT, None), LIST]),
    "remove-sample": (19, [("name", TEXT, None)]),
    "server-info": (20, []),
    "sink-info": (21, SINK),
    "sink-infos": (22, []),
    "source-infos": (24, []),
    "module-infos": (26, []),
    "client-info": (27, [number("client")]),
    "client-infos": (28, []),
    "input-info": (29, [number("input")]),
    "input-infos": (30, []),
    "source-output-infos": (32, []),
    "sample-infos": (34, []),
    "subscribe": (35, [number("mask")]),
    "sink-volume": (36, [*SINK, ("volume", VOLUME, NEEDED)]),
    "volume": (37, [number("input"), ("volume", VOLUME, NEEDED)]),
    "sink-mute": (39, [*SINK, (None, SWITCH, NEEDED)]),
    "cork": (41, [STREAM, (None, SWITCH, NEEDED)]),
    "flush": (42, [STREAM]),
    "trigger": (43, [STREAM]),
    "default-sink": (44, [("sink", TEXT, None)]),
    "stream-name": (46, [STREAM, ("name", TEXT, None)]),
    "kill-client": (48, [number("client")]),
    "kill-input": (49, [number("input")]),
    "prebuf": (60, [STREAM]),
    "move": (67, [number("input"), *SINK]),
    "mute": (69, [number("input"), (None, SWITCH, NEEDED)]),
    "attributes": (72, [
        STREAM, number("maxlength", NONE), number("tlength", NONE), number("prebuf", NONE),
        number("minreq", NONE), *flags("adjust_latency"),
    ]),
    "update-stream": (81, [STREAM, number("mode"), LIST]),
    "update-client": (82, [number("mode"), LIST]),
    "remove-stream": (84, [STREAM, ("keys", TEXTS, [])]),
    "remove-client": (85, [("keys", TEXTS, [])]),
    "card-infos": (89, []),
}
NUMBERS = {code: word for word, (code, _) in COMMANDS.items()}
RECORDERS = ("create-record", "delete-record")  # the commands that `replay --monitor` knows, and `replay` refuses
SAMPLERS = ("upload", "delete-upload", "finish-upload", "play-sample", "remove-sample")  # those that `replay --samples` knows
# What each later version adds at the end of a command's fields.
LATER = {
    "create": [
        (14, [("volume_set", SWITCH, follows("volume")), *flags("early_requests")]),
        (15, [("muted_set", SWITCH, follows("muted")), *flags("dont_inhibit_auto_suspend fail_on_suspend")]),
        (17, flags("relative_volume")),
        (18, flags("passthrough")),
    ],
    "create-record": [(14, flags("early_requests")), (15, flags("dont_inhibit_auto_suspend fail_on_suspend"))],
    "attributes": [(14, flags("early_requests"))],
}


def fields_at(word, version):
    """The fields of a command at a version."""
    later = [field for since, more in LATER.get(word, []) if since <= version for field in more]
    return COMMANDS[word][1] + later


class Spoken:
    """The version that each connection speaks: 13 until an AUTH of it is taken, then the lesser of 18 and what that one names."""

    def __init__(self):
        self.versions = {}

    def connect(self, conn):
        self.versions.pop(conn, None)

    def of(self, conn):
        return self.versions.get(conn, OLDEST)

    def hear(self, conn, packet, cookie):
        """The packet as its connection speaks, or None where it can't be read so; `cookie` is the server's."""
        read = read_packet(packet, self.of(conn))
        if read and read[0] == "auth" and conn not in self.versions:
            named, given = read[2][0] & 0xFFFF, read[2][1]
            if named >= OLDEST and given == cookie:
                self.versions[conn] = min(named, NEWEST)
        return read


def field_for(fields, given, word):
    """The field that a word begins: by its name, else the first without a name that the word fits."""
    for at, (name, kind, _) in enumerate(fields):
        if name == word:
            if at in given:
                raise Wrong(f"{word} is said twice")
            return at, True
    for at, (name, kind, _) in enumerate(fields):
        if name is None and at not in given and kind.fits(word):
            return at, False
    raise Wrong(f"{word} is no field of this command")


def hear_command(word, words, scene, conn):
    """The packet of a line: the command's word was taken, and the connection after it."""
    code, fields = COMMANDS[word][0], fields_at(word, NEWEST)
    tag, version, given = None, None, {}
    while words.peek() is not None:
        if words.takes("tag"):
            if tag is not None:
                raise Wrong("tag is said twice")
            tag = number_of(words.take("the tag"), "a tag")
            continue
        if words.takes("at"):
            if version is not None:
                raise Wrong("at is said twice")
            version = number_of(words.take("the version"), "a packet's version", OLDEST, NEWEST)
            continue
        at, named = field_for(fields, given, words.peek())
        words.at += 1 if named else 0
        given[at] = fields[at][1].hear(words)
    version = scene.version(conn) if version is None else version
    count, said = len(fields_at(word, version)), {fields[at][0] for at in given}
    for at in given:
        if at >= count:
            raise Wrong(f"{fields[at][0]} is no field of this command at version {version}")
    packet = wire.number(code) + wire.number(scene.tag(conn) if tag is None else tag)
    for at, (name, kind, default) in enumerate(fields[:count]):
        if at not in given and default is NEEDED:
            raise Wrong(f"{name or kind.what} is missing")
        value = given.get(at, default)
        packet += kind.spell(value(scene, said) if callable(value) else value)
    return packet


def read_packet(packet, version):
    """The command's word, the tag and the values of the fields, or None where a version hasn't such a packet."""
    items = Items(packet)
    try:
        word, tag = NUMBERS[items.number()], items.number()
        values = [kind.read(items) for _, kind, _ in fields_at(word, version)]
    except (Unread, KeyError):
        return None
    return None if items.left() else (word, tag, values)


def say_packet(packet, scene, conn):
    """The words of a packet, or None where it has none: at its connection's version, else at the first one that has it."""
    own = scene.version(conn)
    for version in (own, *range(OLDEST, NEWEST + 1)):
        read = read_packet(packet, version)
        if read:
            break
    else:
        return None
    word, tag, values = read
    said, names = [word, str(conn), "tag", str(tag)], set()
    said += [] if version == own else ["at", str(version)]
    for (name, kind, default), value in zip(fields_at(word, version), values):
        if value == (default(scene, names) if callable(default) else default):
            continue
        names.add(name)
        said += ([name] if name else []) + kind.say(value)
    return said
