#!/usr/bin/env python3
"""Writes a recorded session that plays SECONDS of sound from STREAMS streams.

  bench/session_of_streams.py SECONDS STREAMS [DEPTH [QUEUED]] [--record] [--format FORMAT] [--channels CHANNELS] [--sinks SINKS]
                              [--write FRAMES] [--moves] [--volumes] > FILE.prs

One sink of S16LE, stereo, at 48,000 frames a second, where nothing else is said. Each turn plays 480 frames; before it each stream is sent its
next 480 frames, and after it all notices are collected. The guard is a turn, and the depth two (960 frames) where nothing
else is said, so that each frame is mixed once; with DEPTH frames a mixer that mixes all of them anew at each turn mixes each
frame DEPTH / 480 - 1 times. QUEUED frames of each stream wait at each turn, as many as the depth where nothing else is said.
Both are whole turns. Up to 64 streams each is of a client of its own, above that four are of one. All streams keep playing from
their first frame to the end, a tone each. With --record one more client records what the sink plays (for `replay --monitor`).
FORMAT is s16le or s32le. With SINKS the streams are spread over as many sinks, one after the other, and each makes the same turns.
FRAMES, a part of a turn, are sent at a time, a turn's where nothing else is said. With --moves there are two sinks, and the first stream
moves to the other one at each turn; with --volumes the first stream's volume changes at each."""

import math
import os
import sys
from dataclasses import dataclass

sys.path.insert(0, os.path.join(os.path.dirname(os.path.abspath(__file__)), "..", "tools"))
sys.dont_write_bytecode = True

import wire
from maker import make
from recording import spelled_bytes, spelled_turn

TURN = 480  # frames
RATE = 48_000
SAMPLES = {"s16le": 2, "s32le": 4}  # the bytes of a sample
CLIENT = """
connect {0}
auth {0} tag 0 version 13
"""
RECORD = """
connect 1000
auth 1000 tag 0 version 13
create-record 1000 tag 1 s16le 2 48000 map 1,2
"""
MOVE, VOLUME = 67, 37


@dataclass
class Shape:
    """What a session has: its lengths in frames, its sinks and streams."""

    seconds: int
    streams: int
    depth: int
    queued: int
    record: bool = False
    format: str = "s16le"
    channels: int = 2
    sinks: int = 1
    write: int = TURN
    moves: bool = False
    volumes: bool = False

    def frame(self):
        """The bytes of a frame."""
        return self.channels * SAMPLES[self.format]

    def spec(self):
        """The words of a sink's and a stream's format; the map is left and right, or as many auxiliary channels."""
        positions = [1, 2] if self.channels == 2 else range(12, 12 + self.channels)
        return f"{self.format} {self.channels} {RATE} map {','.join(map(str, positions))}"


def tone(hertz, height, shape):
    """A second of a tone: whole turns of it, so that it can be sent again and again."""
    size = SAMPLES[shape.format]
    height <<= 8 * size - 16
    values = [round(height * math.sin(2 * math.pi * (at * hertz % RATE) / RATE)) for at in range(RATE)]
    return b"".join(value.to_bytes(size, "little", signed=True) * shape.channels for value in values)


def places(streams):
    """The connection of each stream, and its number there."""
    each = 1 if streams <= 64 else 4
    return [(1 + at // each, at % each) for at in range(streams)]


def name_of(sink):
    return "out" if sink == 0 else f"out{sink}"


def events_of_data(shape):
    """For each turn within a second, the events that send each stream its frames."""
    tones = [tone(220 + 55 * at, 32_000 // shape.streams, shape) for at in range(shape.streams)]
    size = shape.frame() * shape.write
    each = TURN // shape.write
    return [
        b"".join(
            spelled_bytes(conn, wire.frame_of(channel, 0, 0, sound[at * size : (at + 1) * size]))
            for at in range(turn * each, (turn + 1) * each)
            for (conn, channel), sound in zip(places(shape.streams), tones)
        )
        for turn in range(RATE // TURN)
    ]


def move_of(tag, sink):
    """The event by which the first stream moves to a sink."""
    fields = [MOVE, tag, 0, sink]
    return spelled_bytes(1, wire.packet_frame(b"".join(map(wire.number, fields)) + wire.text(None)))


def volume_of(turn):
    """The event by which the first stream is half as loud at even turns, and as loud as it is at others."""
    fields = [VOLUME, 2 + turn, 0]
    return spelled_bytes(1, wire.packet_frame(b"".join(map(wire.number, fields)) + wire.volume([0x10000 if turn % 2 else 0x8000])))


def write(out, shape):
    # A stream asks for two turns more than wait, so that it asks for a turn's frames at each turn.
    target = shape.frame() * (shape.queued + 2 * TURN)
    least = shape.frame() * TURN
    lines = [f"sink {name_of(sink)} {shape.spec()} guard {TURN} depth {shape.depth}\n" for sink in range(shape.sinks)]
    for at, (conn, channel) in enumerate(places(shape.streams)):
        lines.append(CLIENT.format(conn) if channel == 0 else "")
        place = "" if shape.sinks == 1 or shape.moves else f"sink {name_of(at % shape.sinks)} "
        lines.append(f"create {conn} tag 1 {shape.spec()} {place}prebuf 0 tlength {target} minreq {least}\n")
    lines.append(RECORD if shape.record else "")
    out.write(make("".join([*lines, "end\n"]))[:-1])
    if shape.moves:
        return write_moves(out, shape)
    data, ahead, writes = events_of_data(shape), shape.queued // TURN, TURN // shape.write
    counts = [len(range(sink, shape.streams, shape.sinks)) for sink in range(shape.sinks)]
    # The first frames, after each stream's two messages; each stream then asks for more.
    for turn in range(ahead):
        out.write(data[turn % len(data)])
    for sink, count in enumerate(counts):
        out.write(spelled_turn(sink, 0, (2 + ahead * writes) * count) + spelled_turn(sink, None, count))
    for turn in range(shape.seconds * len(data)):
        out.write((volume_of(turn) if shape.volumes else b"") + data[(turn + ahead) % len(data)])
        for sink, count in enumerate(counts):
            told = shape.volumes and sink == 0  # the factors of its inputs
            # At the first of these turns each stream tells that it started, too.
            out.write(spelled_turn(sink, TURN, writes * count + told) + spelled_turn(sink, None, count if turn else 2 * count))
    return out.write(b"\0")


def write_moves(out, shape):
    """Turns of two sinks, before each of which the first stream moves to the other one, which it comes to within the turn."""
    data, ahead = events_of_data(shape), shape.queued // TURN
    for turn in range(ahead):
        out.write(data[turn % len(data)])
    out.write(spelled_turn(0, 0, 2 + ahead) + spelled_turn(0, None, 1) + spelled_turn(1, 0, 0))
    for turn in range(shape.seconds * len(data)):
        here, there = turn % 2, (turn + 1) % 2
        out.write(move_of(2 + turn, there) + data[(turn + ahead) % len(data)])
        # The sink that it leaves is told so, and tells that it left, and at the first turn that it had started.
        out.write(spelled_turn(here, TURN, 1) + spelled_turn(here, None, 1 if turn else 2))
        # The other one is told of the stream, its factors and the frames, after the factors of those that stay once it had left.
        out.write(spelled_turn(there, TURN, 4 if turn else 3) + spelled_turn(there, None, 1))
    out.write(b"\0")


def read_words(words):
    """The shape that words say, or None."""
    shape, numbers, words = Shape(0, 0, 0, 0), [], list(words)
    while words:
        word = words.pop(0)
        if word in ("--record", "--moves", "--volumes"):
            setattr(shape, word[2:], True)
        elif word == "--format" and words and words[0] in SAMPLES:
            shape.format = words.pop(0)
        elif word in ("--channels", "--sinks", "--write") and words and words[0].isdecimal():
            setattr(shape, word[2:], int(words.pop(0)))
        elif word.isdecimal():
            numbers.append(int(word))
        else:
            return None
    if not 2 <= len(numbers) <= 4:
        return None
    shape.seconds, shape.streams, shape.depth = (*numbers[:2], numbers[2] if numbers[2:] else 2 * TURN)
    shape.queued = numbers[3] if numbers[3:] else shape.depth
    shape.sinks = 2 if shape.moves else shape.sinks
    is_whole = shape.depth % TURN == shape.queued % TURN == 0 and shape.write > 0 and TURN % shape.write == 0
    is_played = 1 <= shape.streams <= 256 and 2 * TURN <= shape.depth <= min(shape.queued, 65_280) and 1 <= shape.channels <= 32
    is_spread = 1 <= shape.sinks <= 16 and (shape.streams == 1 if shape.moves else shape.sinks <= shape.streams)
    return shape if is_whole and is_played and is_spread else None


def main(words):
    shape = read_words(words)
    if shape is None:
        print(__doc__, file=sys.stderr)
        return 2
    write(sys.stdout.buffer, shape)
    return 0


if __name__ == "__main__":
    sys.exit(main(sys.argv[1:]))
