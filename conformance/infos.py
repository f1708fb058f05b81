"""Property lists, and what is told of the server, of sinks, sink inputs and clients, at each version from 13 to 18."""

import wire
from words import NONE

NOBODY = wire.number(NONE)
DRIVER = wire.text(b"pulse_rw")
NO_TIME = b"U" + bytes(8)
FLAGS = 0x60  # a sink's: decibel volume, flat volume
STREAM_NAME, CLIENT_NAME = b"media.name", b"application.name"
SET, MERGE, REPLACE = range(3)


def listed(pairs):
    """The list that pairs mean: a key that comes again keeps its place and takes the later value."""
    return dict(pairs)


def updated(mode, old, pairs):
    """A list once another is set in its place, merged into it where keys are missing, or put over it."""
    new = listed(pairs)
    return new if mode == SET else {**old, **{k: v for k, v in new.items() if mode == REPLACE or k not in old}}


def name_in(properties, key):
    """The text under a key, after which a zero byte stands, and no other."""
    value = properties.get(key, b"")
    return value[:-1] if value.endswith(b"\0") and value.count(b"\0") == 1 else None


def server_info(version, sink):
    """`sink` is the default sink."""
    told = b"".join(map(wire.text, (b"pulse_rw", b"1", b"pulse", b"localhost"))) + wire.spec(sink.spec)
    told += wire.text(sink.name) + wire.text(None) + wire.number(0)
    return told + (wire.channel_map(sink.positions) if version >= 15 else b"")


def sink_info(version, index, sink, group):
    told = wire.number(index) + wire.text(sink.name) * 2 + wire.spec(sink.spec) + wire.channel_map(sink.positions) + NOBODY
    told += wire.volume(group.reference) + wire.flag(group.muted) + NOBODY + wire.text(None)
    told += NO_TIME + DRIVER + wire.number(FLAGS) + wire.properties([]) + NO_TIME
    if version >= 15:  # a base volume of 65536, state 0, 65537 steps, no card
        told += b"V" + (0x10000).to_bytes(4, "big") + wire.number(0) + wire.number(65537) + NOBODY
    return told + (wire.number(0) + wire.text(None) if version >= 16 else b"")  # no ports, and none is active


def input_info(index, sink, stream, member):
    told = wire.number(index) + wire.text(name_in(stream.properties, STREAM_NAME)) + NOBODY
    told += wire.number(stream.client) + wire.number(sink) + wire.spec(stream.spec) + wire.channel_map(stream.positions)
    told += wire.volume(member.volume) + NO_TIME * 2 + wire.text(None) + DRIVER + wire.flag(member.muted)
    return told + wire.properties(stream.properties.items())


def client_info(client):
    told = wire.number(client.number) + wire.text(name_in(client.properties, CLIENT_NAME)) + NOBODY + DRIVER
    return told + wire.properties(client.properties.items())
