"""Tests of sessions that are shown as text and made again, byte for byte."""

import io
import os
import random
import sys
import unittest

import packets
import wire
from maker import make
from recording import FORMS, TWO, SinkSpec, read_session, spelled_bytes, spelled_event, spelled_header, spelled_turn
from teller import show
from testing import CONNECT, CREATE_TEXT, FRONT, HEADER, TOP, contents, frame_of

sys.path.append(os.path.join(TOP, "bench"))

import session_of_streams


class Shown(unittest.TestCase):
    """A session that was shown is made again."""

    def again(self, session):
        text = show(session)
        self.assertEqual(make(text), session)
        self.assertEqual(show(make(text)), text)

    def test_examples(self):
        """Those made by hand and those recorded from clients, at 13 and at 18."""
        names = sorted(name[: -len(".txt")] for name in os.listdir(os.path.join(TOP, "examples")) if name.endswith(".txt"))
        self.assertEqual(len(names), 10)
        for name in names:
            session = contents("examples", name + ".prs")
            self.assertEqual(make(contents("examples", name + ".txt").decode()), session)
            self.assertLess(len(session), 300_000)
            self.again(session)

    def test_every_command(self):
        lines = [
            CREATE_TEXT.strip(), "delete 1 tag 2 stream 0", "lookup-sink 1 tag 3 sink out", "drain 1 tag 4 stream 0",
            "latency 1 tag 5 stream 0 time 12:500000", "server-info 1 tag 6", "sink-info 1 tag 7 sink out",
            "sink-info 1 tag 8 index 0", "sink-infos 1 tag 9", "source-infos 1 tag 10", "module-infos 1 tag 11",
            "client-info 1 tag 12 client 0", "client-infos 1 tag 13", "input-info 1 tag 14 input 0",
            "input-infos 1 tag 15", "source-output-infos 1 tag 16", "sample-infos 1 tag 17", "card-infos 1 tag 18",
            "subscribe 1 tag 19 mask 767", "sink-volume 1 tag 20 index 0 volume 65536,0",
            "volume 1 tag 21 input 0 volume 32768", "sink-mute 1 tag 22 sink out on", "mute 1 tag 23 input 0 off",
            "cork 1 tag 24 stream 0 on", "flush 1 tag 25 stream 0", "trigger 1 tag 26 stream 0",
            "prebuf 1 tag 27 stream 0", 'default-sink 1 tag 28 sink "a b"', 'stream-name 1 tag 29 stream 0 name ""',
            "kill-client 1 tag 30 client 0", "kill-input 1 tag 31 input 0", "move 1 tag 32 input 0 sink wide",
            "attributes 1 tag 33 stream 0 maxlength 8 tlength 4 prebuf 2 minreq 2 adjust_latency",
            "update-stream 1 tag 34 stream 0 mode 2 media.name=song icon:00ff", "update-client 1 tag 35 mode 0 a= b:",
            "remove-stream 1 tag 36 stream 0 keys a b", "remove-client 1 tag 37",
            "create 1 tag 38 alaw 2 44100 map 1,2 index 3 sink out maxlength 9 corked syncid 5 volume 1,2 no_remap "
            "fix_rate muted a=b",
            "create-record 1 tag 40 s16le 1 48000 map 0", "delete-record 1 tag 41 stream 0",
            "create-record 1 tag 42 s24be 2 44100 map 1,2 index 3 source out.monitor maxlength 9 corked fragsize 6 no_remap fix_rate "
            "peak_detect a=b direct_input 7",
            "upload 1 tag 43 name beep s24be 2 44100 map 1,2 length 12 a=b", "delete-upload 1 tag 44 stream 0", "finish-upload 1 tag 45 stream 0",
            'play-sample 1 tag 46 index 3 sink out volume 32768 name "a b" a=b', "remove-sample 1 tag 47 name beep",
            'name 1 tag 39 "a=b"="c\\x01\\\\\\"d\u00e4" application.name="my player"', "packet 1 hex 4c000000ff",
            "bytes 1 hex 0102", "bytes 1 hex 030405",
        ]
        self.assertEqual({line.split()[0] for line in lines} - {"packet", "bytes"} | {"auth"}, set(packets.COMMANDS))
        text = FRONT + "\n".join(lines) + "\nend\n"
        self.assertEqual(show(make(text)).replace(" \\\n   ", ""), text)
        self.again(make(text))

    def test_formats(self):
        rng = random.Random(1)
        for code, word in enumerate(wire.FORMATS):
            for channels in (1, 2, 3):
                size = wire.SIZES[code] * channels
                front = f"create 1 tag 1 {word} {channels} 48000 map {','.join('0' * channels)}\n"
                session = make(FRONT + front + "end\n")[:-1]
                for data in (rng.randbytes(size * 5), bytes(size * 9) + b"\1" * size, rng.randbytes(size * 5 + 1)):
                    session += spelled_bytes(1, wire.frame_of(0, 0, 0, data))
                self.again(session + b"\0")

    def test_fixed_format(self):
        for flags, frame in (("", "8181"), ("fix_format", "01000100"), ("fix_channels", "81"), ("fix_rate", "8181")):
            front = FRONT + f"create 1 tag 1 u8 2 44100 map 1,2 {flags}\n"
            self.assertEqual(frame_of("data 1 stream 0 1", front)[20:].hex(), frame)

    def test_every_cutting(self):
        frames = frame_of("name 1 tag 1 a=b") + frame_of(CREATE_TEXT) + wire.frame_of(0, 0, 0, b"\1\0" * 5)
        for size in range(1, len(frames) + 1):
            pieces = [frames[at : at + size] for at in range(0, len(frames), size)]
            self.again(HEADER + CONNECT + b"".join(spelled_bytes(1, piece) for piece in pieces) + b"\0")

    def test_frame_within_a_frame(self):
        """What looks like a frame within another one is shown as bytes."""
        frame = frame_of("flush 1 tag 0 stream 0")
        session = HEADER + CONNECT + spelled_bytes(1, wire.frame_of(5, 0, 0, bytes(50))[:20])
        self.assertNotIn("flush", show(session + spelled_bytes(1, frame) + b"\0"))
        self.assertIn("flush", show(session + spelled_bytes(1, bytes(50)) + spelled_bytes(1, frame) + b"\0"))

    def test_long_frame(self):
        frame = wire.frame_of(9, 0, 0, random.Random(2).randbytes(150_000))
        pieces = [spelled_bytes(1, frame[at : at + 65_536]) for at in range(0, len(frame), 65_536)]
        session = HEADER + CONNECT + b"".join(pieces) + b"\0"
        self.assertNotIn("split", show(session))
        self.again(session)

    def test_random_sessions(self):
        for seed in range(300):
            self.again(self.random_session(random.Random(seed)))

    def random_session(self, rng):
        sinks = []
        for at in range(rng.randint(1, 4)):
            name = bytes([0x41 + at]) + bytes(rng.randint(0x21, 0x7E) for _ in range(rng.randint(0, 9)))
            spec = rng.choice((0, 3, 4, 7, 8, 9, 10, 11, 12)), rng.randint(1, 4), rng.randint(1, 192_000)
            depth = rng.randint(1, 65_536)
            positions = [rng.randint(0, 50) for _ in range(spec[1])]
            sinks.append(SinkSpec(name, spec, positions, rng.randint(0, depth), depth))
        form = rng.choice(FORMS)
        session = spelled_header(rng.choice((bytes(256), rng.randbytes(256))), sinks, form)
        return session + b"".join(self.random_events(rng, form) for _ in range(rng.randint(0, 30))) + b"\0"

    def random_events(self, rng, form):
        conn, kind = rng.choice((1, 2, 0xFFFFFFFF)), rng.randint(0, 9)
        if kind < 3:
            return bytes([(1, 3, 4)[kind]]) + conn.to_bytes(4, "big")
        if kind == 3:
            if form is TWO and rng.randrange(2):
                return spelled_event((7, rng.randint(0, 255)), form)
            return spelled_turn(rng.randint(0, 255), rng.choice((None, 7, form.greatest())), rng.choice((rng.randint(0, 9), form.greatest())), form)
        if kind == 4:
            return spelled_bytes(conn, rng.randbytes(rng.randint(0, 40)), form)
        lines = CREATE_TEXT, "create 1 at 17 s16le 1 48000 map 0 muted", "auth 1 version 13", "auth 1 version 18", "name 1 a=b", "data 1 stream 0 hex 0102x9", "flush 1 stream 2"
        frame = frame_of(rng.choice(lines))
        if kind == 5:
            at = rng.randrange(20, len(frame))
            frame = frame[:at] + rng.randbytes(1) + frame[at + 1 :]
        size = rng.choice((1, 3, 40, 1000))
        pieces = [frame[at : at + size] for at in range(0, len(frame), size)]
        return b"".join(spelled_bytes(conn, piece, form) for piece in pieces)


class Benchmark(unittest.TestCase):
    def test_session_of_streams(self):
        out = io.BytesIO()
        session_of_streams.write(out, session_of_streams.Shape(1, 2, 960, 960))
        said = read_session(out.getvalue()).events
        turns = [event for event in said if event[0] == 5]
        self.assertEqual((len(turns), sum(turn[2] for turn in turns)), (101, 48_000))
        data = [event for event in said if event[0] == 2 and event[2][4:8] == bytes(4)]
        self.assertEqual({len(event[2]) for event in data}, {20 + 4 * 480})
        self.assertEqual(len(data), 2 * 102)
        self.assertEqual(sum(turn[3] for turn in turns), 2 * 2 + 2 * 102)
        self.assertEqual(make(show(out.getvalue())), out.getvalue())
