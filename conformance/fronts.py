"""Packets that end early, or a byte too late: each command with fields of every kind that it has, cut off at each of its bytes."""

from maker import make
from packets import COMMANDS, LATER, NEWEST, OLDEST, RECORDERS, SAMPLERS
from recording import read_session

FIELDS = {
    "create": "s16le 2 48000 map 1,2 sink out volume 65536,1 media.name=bell",
    "create-record": "s16le 1 48000 map 0 source out.monitor media.name=bell",
    "name": "application.name=bell",
    "upload": "name bell s16le 1 48000 map 0 length 4 media.name=bell",
    "play-sample": "sink out volume 1 name bell media.name=bell",
    "remove-sample": "name bell",
    "lookup-sink": "sink out", "default-sink": "sink out", "sink-info": "sink out",
    "latency": "time 1:2",
    "sink-volume": "sink out volume 65536", "volume": "volume 65536,1",
    "sink-mute": "sink out on", "mute": "off", "cork": "on",
    "stream-name": "name bell",
    "move": "sink out",
    "update-stream": "media.name=bell", "update-client": "a=b media.name=bell",
    "remove-stream": "keys a media.name", "remove-client": "keys a",
}
NUMBERS = ("stream", "input", "client", "mask", "mode")
HEADER = "sink out s16le 1 48000 map 0 guard 10 depth 100"


def packets(version, words):
    """The packet of each of these commands at a version."""
    lines = [HEADER, "connect 1"]
    for word in words:
        numbers = " ".join(f"{name} 2" for name, _, _ in COMMANDS[word][1] if name in NUMBERS)
        lines += [f"{word} 1 at {version} {numbers} {FIELDS.get(word, '')}"]
    lines += ["end", ""]
    return [event[2][20:] for event in read_session(make("\n".join(lines)))[2] if event[0] == 2]


def thrown_fronts():
    """The head of the first packet is cut off at each byte too, and each packet has a byte too many at last. Each has a connection of its own.
    Those that have more fields at later versions come again at the last one. AUTH's isn't among them: no connection says it twice."""
    lines = ["# Each command cut off at each of its bytes, and with a byte too many: it ends its connection where it is too short, or at the byte left over."]
    first = [word for word in COMMANDS if word not in ("auth", *RECORDERS, *SAMPLERS)]
    again = [word for word in LATER if word not in RECORDERS]
    return "\n".join([*lines, HEADER, *cut_off({OLDEST: first, NEWEST: again}), "end", ""])


def thrown_recorders():
    """The same with the two commands of record streams: the first has other fields at 13, at 14 and from 15 on."""
    lines = ["# The commands of record streams cut off at each of their bytes, and with a byte too many: they end their connections as others do."]
    create = RECORDERS[:1]
    return "\n".join([*lines, HEADER, *cut_off({OLDEST: RECORDERS, 14: create, NEWEST: create}), "end", ""])


def thrown_samplers():
    """The same with the five commands of samples, which have the same fields at every version."""
    lines = ["# The commands of samples cut off at each of their bytes, and with a byte too many: they end their connections as others do."]
    return "\n".join([*lines, HEADER, *cut_off({OLDEST: SAMPLERS}), "end", ""])


def cut_off(words):
    """The lines of connections that send these commands of each version, cut off and with a byte too many."""
    whole = [(version, packet) for version, named in words.items() for packet in packets(version, named)]
    for at, (version, packet) in enumerate(whole):
        for said in [packet[:end] for end in range(10 if at else 1, len(packet))] + [packet + b"N"]:
            yield from ("connect 1", f"auth 1 tag 0 version {version}", f"packet 1 hex {said.hex()}", "close 1")
