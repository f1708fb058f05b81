"""What the server sends to clients, as words: replies, errors and messages, at each version of the protocol from 13 to 18."""

import wire
from packets import FLAG, MAP, NEWEST, NUMBERS, OLDEST, PROPERTIES, SPEC, TEXT, TIME, VOLUME, Kind, commas, say_properties
from words import NONE, hex_words, number_word, quoted
from wire import Items, Unread

ERRORS = {
    1: "ACCESS", 2: "COMMAND", 3: "INVALID", 4: "EXIST", 5: "NOENTITY", 7: "PROTOCOL", 15: "BADSTATE",
    17: "VERSION", 18: "TOOLARGE", 19: "NOTSUPPORTED", 23: "NOTIMPLEMENTED", 26: "BUSY",
}
NUMBER, WIDE, SIGNED, USEC = Items.number, Items.wide, Items.signed, Items.usec
SPEC, MAP, TEXT, TIME, VOLUME, FLAG = SPEC.read, MAP.read, TEXT.read, TIME.read, VOLUME.read, FLAG.read
PROPERTIES = PROPERTIES.read

ATTRIBUTES = [("maxlength", NUMBER), ("tlength", NUMBER), ("prebuf", NUMBER), ("minreq", NUMBER)]
SINK = [("index", NUMBER), ("sink", TEXT)]
SINK_INFO = [
    *SINK, ("description", TEXT), ("spec", SPEC), ("map", MAP), ("module", NUMBER), ("volume", VOLUME),
    ("mute", FLAG), ("monitor", NUMBER), ("monitor-name", TEXT), ("usec", USEC), ("driver", TEXT),
    ("flags", NUMBER), ("properties", PROPERTIES), ("requested-usec", USEC),
]
INPUT_INFO = [
    ("input", NUMBER), ("name", TEXT), ("module", NUMBER), ("client", NUMBER), ("index", NUMBER),
    ("spec", SPEC), ("map", MAP), ("volume", VOLUME), ("usec", USEC), ("sink-usec", USEC),
    ("resampling", TEXT), ("driver", TEXT), ("mute", FLAG), ("properties", PROPERTIES),
]
CLIENT_INFO = [
    ("client", NUMBER), ("name", TEXT), ("module", NUMBER), ("driver", TEXT), ("properties", PROPERTIES),
]

# The fields of each reply at version 13, by the command that it answers. A reply that isn't here has no fields.
REPLIES = {
    "create": [
        ("stream", NUMBER), ("input", NUMBER), ("wanted", NUMBER), *ATTRIBUTES, ("spec", SPEC), ("map", MAP),
        *SINK, ("suspended", FLAG), ("usec", USEC),
    ],
    "create-record": [
        ("stream", NUMBER), ("output", NUMBER), ("maxlength", NUMBER), ("fragsize", NUMBER), ("spec", SPEC), ("map", MAP),
        ("index", NUMBER), ("source", TEXT), ("suspended", FLAG), ("usec", USEC),
    ],
    "latency": [
        ("usec", USEC), ("source-usec", USEC), ("playing", FLAG), ("time", TIME), ("again", TIME),
        ("write", SIGNED), ("read", SIGNED), ("underrun", WIDE), ("played", WIDE),
    ],
    "attributes": [*ATTRIBUTES, ("usec", USEC)],
    "server-info": [
        ("server", TEXT), ("version", TEXT), ("user", TEXT), ("host", TEXT), ("spec", SPEC), ("sink", TEXT),
        ("source", TEXT), ("server-cookie", NUMBER),
    ],
    "sink-info": SINK_INFO,
    "input-info": INPUT_INFO,
    "client-info": CLIENT_INFO,
    "auth": [("version", NUMBER)],
    "name": [("client", NUMBER)],
    "lookup-sink": [("index", NUMBER)],
    "upload": [("stream", NUMBER), ("length", NUMBER)],
    "play-sample": [("input", NUMBER)],
}
LISTS = {"sink-infos": SINK_INFO, "input-infos": INPUT_INFO, "client-infos": CLIENT_INFO}
# What later versions add at the end of what is told.
SINK_INFO_LATER = [
    (15, [("base", Items.base), ("state", NUMBER), ("steps", NUMBER), ("card", NUMBER)]),
    (16, [("ports", NUMBER), ("port", TEXT)]),
]
LATER = {"sink-info": SINK_INFO_LATER, "sink-infos": SINK_INFO_LATER, "server-info": [(15, [("map", MAP)])]}
# No other reply has these kinds of fields.
SHAPES = [
    ("create", OLDEST), ("create-record", OLDEST), ("latency", OLDEST), ("attributes", OLDEST), ("server-info", OLDEST),
    ("server-info", NEWEST),
]

MESSAGES = {
    61: ("request", [("stream", NUMBER), ("bytes", NUMBER)]),
    62: ("overflow", [("stream", NUMBER)]),
    63: ("underflow", [("stream", NUMBER)]),
    64: ("killed", [("stream", NUMBER)]),
    66: ("event", [("event", NUMBER), ("index", NUMBER)]),
    78: ("moved", [("stream", NUMBER), *SINK, ("suspended", FLAG), *ATTRIBUTES, ("usec", USEC)]),
    86: ("started", [("stream", NUMBER)]),
}
EVENTS = {0: "sink", 2: "input", 5: "client", 7: "server"}
CHANGES = {0: "new", 0x10: "change", 0x20: "remove"}


def value_words(read, value):
    """The words of one value, by the reading that gave it."""
    if read is NUMBER:
        return [number_word(value)]
    if read is FLAG:
        return ["yes" if value else "no"]
    if read is TEXT:
        return ["null" if value is None else quoted(value)]
    if read is SPEC:
        return [wire.format_word(value[0]), str(value[1]), str(value[2])]
    if read in (MAP, VOLUME):
        return commas(value)
    if read is TIME:
        return [f"{value[0]}:{value[1]}"]
    if read is PROPERTIES:
        return say_properties(value) or ["none"]
    return [str(value)]


def fields_words(items, fields):
    said = []
    for name, read in fields:
        said += [name, *value_words(read, read(items))]
    return said


def reply_fields(command, version):
    """The fields of the reply to a command at a version, or of each thing in it where it is a list."""
    later = [field for since, more in LATER.get(command, []) if since <= version for field in more]
    return [*LISTS.get(command, REPLIES.get(command, [])), *later]


def reply_words(items, command, version):
    """The words of a reply's fields, read as the answer to this command at this version."""
    fields = reply_fields(command, version)
    if command in LISTS:
        said = []
        while items.left():
            said += ["/"] * bool(said) + fields_words(items, fields)
    else:
        said = fields_words(items, fields)
    if items.left():
        raise Unread
    return [command, *said]


def sent_words(packet, asked):
    """The words of a packet that the server sent; `asked(tag)` gives the commands of that tag and their versions, where they are known."""
    items = Items(packet)
    try:
        number, tag = items.number(), items.number()
    except Unread:
        return ["packet", "hex", *hex_words(packet)]
    front = items.at
    if number == 2:
        commands = asked(tag)
        for command, version in commands or SHAPES:
            items.at = front
            try:
                return ["reply", "tag", str(tag), *reply_words(items, command, version)]
            except Unread:
                pass
        return ["reply", "tag", str(tag), *plain_words(packet[front:])]
    if number == 0 and len(packet) == front + 5:
        code = items.number()
        return ["error", "tag", str(tag), ERRORS.get(code, str(code))]
    if number in MESSAGES and tag == NONE:
        word, fields = MESSAGES[number]
        try:
            return message_words(word, fields_words(items, fields), items)
        except Unread:
            pass
    return ["packet", "hex", *hex_words(packet)]


def message_words(word, said, items):
    if items.left():
        raise Unread
    if word != "event":
        return [word, *said]
    kind = int(said[1])
    return ["event", CHANGES.get(kind & 0x30, "?"), EVENTS.get(kind & 0xF, "?"), *said[2:]]


def plain_words(fields):
    """The words of fields whose command isn't known."""
    if len(fields) == 5 and fields[:1] == b"L":
        return ["number", number_word(int.from_bytes(fields[1:], "big"))]
    return hex_words(fields) and ["hex", *hex_words(fields)]
