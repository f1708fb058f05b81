"""Tests of the picture of a run, and of the account that it draws."""

import os
import runpy
import tempfile
import unittest
import xml.etree.ElementTree as tree
from unittest import mock

import account
import course
import picture
import wire
from maker import make
from recording import read_session
from testing import run_tool
from test_output import sent
from words import Wrong

TOP = os.path.dirname(os.path.dirname(os.path.abspath(__file__)))
RECKON = runpy.run_path(os.path.join(TOP, "conformance", "reckon.py"))
SVG = "{http://www.w3.org/2000/svg}"
SINK = "sink out s16le 1 48000 map 0 guard 10 depth 100\n"
AUTH = "connect 1\nauth 1 tag 0 version 13\n"
CREATE = "create 1 tag 1 s16le 1 48000 map 0 tlength 400 prebuf 0 minreq 2\n"


def text_of(*path):
    with open(os.path.join(TOP, *path), encoding="utf-8") as file:
        return file.read()


def drawn(text):
    """The picture of a session's text, whose output the reckoner gives."""
    session = make(text)
    svg, fault = picture.picture(RECKON["reckoned"](session), read_session(session))
    assert fault is None
    return tree.fromstring(svg)


def lanes(root, kind):
    return [it for it in root.iter(SVG + "g") if it.get("class") == f"{kind}-lane"]


def blocks(lane, class_):
    """From where to where the blocks of a class lie."""
    found = [it for it in lane.iter(SVG + "rect") if it.get("class") == class_]
    return [(float(it.get("x")), float(it.get("x")) + float(it.get("width"))) for it in found]


def lines(lane, class_):
    return [float(it.get("x1")) for it in lane.iter(SVG + "line") if it.get("class") == class_]


def texts(lane):
    return [(it.text or "") + "".join(child.tail or "" for child in it) for it in lane.iter(SVG + "text")]


class Lanes(unittest.TestCase):
    def test_late_data(self):
        """The last horizon is 80, so that a frame has 12.5 of 1,000 points; of 40 frames written at 20 those before 30 are late."""
        root = drawn(text_of("examples", "late_data.txt"))
        (sink,), (stream,) = lanes(root, "sink"), lanes(root, "stream")
        self.assertEqual(lines(sink, "tick"), [200, 450, 450, 1075])
        self.assertEqual(lines(stream, "sent"), [450])
        self.assertEqual(blocks(stream, "late"), [(200, 575)])
        self.assertEqual(blocks(stream, "written"), [(575, 700)])
        self.assertEqual(blocks(stream, "played"), [(575, 700)])
        self.assertEqual(blocks(sink, "ahead"), [(1075, 1200)])
        self.assertEqual(lines(stream, "mark started"), [1075])
        self.assertEqual(lines(stream, "mark underflow"), [1075])
        self.assertIn("80", texts(sink))
        self.assertIn("1.6 ms", texts(root))

    def test_wave(self):
        """Ten frames of 2,000 between silence, one column a frame: the highest is at the upper edge of its 70 points."""
        (sink,) = lanes(drawn(text_of("examples", "late_data.txt")), "sink")
        (wave,) = [it for it in sink.iter(SVG + "polygon") if it.get("class") == "wave"]
        points = [tuple(map(float, it.split(","))) for it in wave.get("points").split()]
        self.assertEqual(len(points), 4 * 70)
        middle = max(y for _, y in points)
        self.assertEqual([x for x, y in points if y < middle], sorted([200 + 12.5 * at for at in range(31, 40)] * 2 + [575, 700]))
        self.assertEqual(min(y for _, y in points), middle - 35)

    def test_corks(self):
        """A cork until 20 and from 40 to 90, where the last horizon is 160."""
        (stream,) = lanes(drawn(text_of("conformance", "streams", "corked.session")), "stream")
        self.assertEqual(blocks(stream, "cork"), [(200, 325), (450, 762.5)])
        self.assertEqual(lines(stream, "mark uncork"), [325, 762.5])
        self.assertEqual(lines(stream, "mark cork"), [450])

    def test_a_move_and_volumes(self):
        text = SINK + SINK.replace("out", "wide") + AUTH + CREATE
        text += "volume 1 tag 2 input 0 volume 32768\nsink-volume 1 tag 3 sink wide volume 65535\nmute 1 tag 4 input 0 on\n"
        text += "move 1 tag 5 input 0 sink wide\nturn out 0 take 5\nturn wide 0 take 1\ncollect out take 1\nturn wide 50 take 2\ncork 1 tag 6 stream 0 on\nend\n"
        root = drawn(text)
        out, wide = lanes(root, "sink")
        (stream,) = lanes(root, "stream")
        self.assertEqual([len(lines(stream, f"mark {word}")) for word in ("moved", "volume", "mute")], [1, 1, 1])
        self.assertEqual([len(lines(sink, "mark volume")) for sink in (out, wide)], [0, 1])
        self.assertIn("moved to wide, at 0 ms", [it.text for it in stream.iter(SVG + "title")])
        # the horizon is 60: what it is told on the new sink stands at that sink's 50th frame
        self.assertEqual(lines(stream, "mark cork"), [round(200 + 1000 * 50 / 60, 2)])

    def test_a_lane_each_with_their_names(self):
        root = drawn(text_of("conformance", "moves", "moves_11.session"))
        self.assertEqual([texts(lane)[0] for lane in lanes(root, "sink")], ["sink out", "sink wide", "sink low"])
        self.assertEqual(sorted(texts(lane)[0] for lane in lanes(root, "stream")), [f"{conn} stream {at}" for conn in (1, 2) for at in range(3)])
        named = SINK.replace("out", '"a<b&"') + AUTH + 'name 1 application.name="<flute>"\n' + CREATE.replace(" tag 1", "") + "turn @0 0 take 2\nend\n"
        root = drawn(named)
        self.assertEqual(texts(lanes(root, "sink")[0])[0], 'sink "a<b&"')
        self.assertEqual(texts(lanes(root, "stream")[0])[:2], ["1 stream 0", '"<flute>"'])

    def test_an_overflow(self):
        (stream,) = lanes(drawn(text_of("conformance", "turns", "overflow.session")), "stream")
        self.assertEqual(len(blocks(stream, "lost")), 1)
        self.assertEqual(len(lines(stream, "mark overflow")), 1)

    def test_samples(self):
        for word, data, said in (
            ("u8", "0180ff", [-127 << 8, 0, 127 << 8]), ("s16le", "e803feff", [1000, -2]), ("s16be", "03e8fffe", [1000, -2]),
            ("s24le", "010203fffeff", [0x302, -2]), ("s24be", "030201fffeff", [0x302, -2]), ("s24-32le", "01020300fffeff00", [0x302, -2]),
            ("s24-32be", "0003020100fffeff", [0x302, -2]), ("s32le", "01020304fffffeff", [0x403, -2]), ("s32be", "04030201fffeffff", [0x403, -2]),
        ):
            self.assertEqual(list(picture.tops(wire.FORMATS.index(word), bytes.fromhex(data))), said)


class Stops(unittest.TestCase):
    TEXT = "form 2\n" + SINK + AUTH + CREATE + "data 1 stream 0 1000x60\nturn out 0 take 3\nturn out 20 take 0\nstop out\nturn out 60 take 0\nturn out 10 take 0\nend\n"

    def test_a_device_that_stops(self):
        """20 frames were played and 10 settled: the run is 30 frames long, and the device stopped after 20."""
        root = drawn(self.TEXT)
        (sink,), (stream,) = lanes(root, "sink"), lanes(root, "stream")
        (mark,) = [it for it in sink.iter(SVG + "line") if it.get("class") == "mark stopped"]
        self.assertEqual((mark.get("x1"), mark[0].text), ("866.67", "its device stopped, 30 frames filled, at 416.667 µs"))
        self.assertIn("20 frames played", texts(sink))
        self.assertEqual(blocks(stream, "played"), [(200, 1200)])

    def test_another_record(self):
        session = make(self.TEXT)
        said = RECKON["reckoned"](session)
        for record in ("0400000000000000001f", "030000000000"):
            other = said.replace(bytes.fromhex("0400000000000000001e"), bytes.fromhex(record))
            self.assertNotEqual(said, other)
            self.assertRaises(Wrong, picture.picture, other, read_session(session))
        cut, fault = picture.picture(said[: said.index(bytes.fromhex("0400000000000000001e"))], read_session(session))
        self.assertIn("it has no end byte", fault)
        self.assertNotIn("its device stopped,", cut)


class Lengths(unittest.TestCase):
    """The width is the same for 100 frames and for a minute, and a minute's picture isn't long."""

    def test_no_frame(self):
        root = drawn(SINK + "end\n")
        self.assertEqual((root.get("width"), len(lanes(root, "sink")), len(lanes(root, "stream"))), ("1230", 1, 0))

    def test_100_frames(self):
        root = drawn(SINK + AUTH + CREATE + "data 1 stream 0 1000x90\nturn out 0 take 3\nturn out 90 take 0\nend\n")
        self.assertEqual(root.get("width"), "1230")
        self.assertEqual(blocks(lanes(root, "stream")[0], "played"), [(200, 1100)])
        self.assertEqual([word for word in texts(lanes(root, "sink")[0]) if word.isdigit()], [str(10 * at) for at in range(1, 11)])

    def test_a_minute(self):
        """6,000 turns of 10 milliseconds, each after a write of as much."""
        text = "sink out u8 1 8000 map 0 guard 0 depth 80\n" + AUTH + "create 1 tag 1 u8 1 8000 map 0 tlength 400 prebuf 0 minreq 2\n"
        text += "data 1 stream 0 9x80\nturn out 0 take 3\n" + 6000 * "data 1 stream 0 9x80\nturn out 80 take 1\n" + "end\n"
        numbers = "".join(f"4c{value:08x}" for value in (0, 0, 400, 4194304, 400, 0, 2))
        data = sent(1, "4c00000002" "4c00000000" "4c00000012")
        data += sent(1, f"4c00000002 4c00000001 {numbers} 610001 00001f40 6d0100 4c00000000 746f757400 30 550000000000002710")
        svg, fault = picture.picture(data + 6000 * (b"\3\0\0\0\0\x50" + 80 * b"\x89") + b"\0", read_session(make(text)))
        self.assertIsNone(fault)
        root = tree.fromstring(svg)
        (stream,) = lanes(root, "stream")
        self.assertEqual((root.get("width"), blocks(stream, "played"), len(blocks(stream, "written"))), ("1230", [(200, 1200)], 1))
        self.assertEqual([word for word in texts(root) if word[:-2].isdigit() and word.endswith(" s")], [f"{at} s" for at in range(0, 61, 10)])
        self.assertLess(len(svg), 300_000)


class Accounts(unittest.TestCase):
    def test_as_the_reckoner_has_it(self):
        """After each turn sinks and streams stand where the reckoner has them, though turns leave messages waiting."""
        for row in ("reckoned/dice_7", "reckoned/life_7", "sinks/sinks_7", "moves/moves_11", "moves/many_waiting", "versions/followed", "forms/stops_7"):
            session = make(RECKON["thrown_by"](["--stops", "7", "300"]) if row == "forms/stops_7" else text_of("conformance", *f"{row}.session".split("/")))
            _, sinks, events, _ = read_session(session)
            server, wanted, came = RECKON["Server"](bytes(256), sinks), [], []
            for event in events[:-1]:
                server.event(event)
                if event[0] == 5:
                    sink = server.sinks[event[1]]
                    streams = [(it.owner, it.number, it.read, it.write, max(it.edge() - it.read, 0)) for it in sink.inputs.values()]
                    wanted.append((sink.number, sink.consumed, sink.horizon, sorted(streams)))

            class Sink(course.Sink):
                def turn(self, frames, taken):
                    super().turn(frames, taken)
                    streams = [(it.conn, it.number, it.read, it.write, it.left()) for it in self.streams]
                    came.append((self.number, self.consumed, self.horizon, sorted(streams)))

            with mock.patch.object(account, "Sink", Sink):
                account.Run(read_session(session), bytes(server.said) + b"\0")
            self.assertEqual(came, wanted, row)


class Commands(unittest.TestCase):
    SESSION = make(SINK + AUTH + CREATE + "data 1 stream 0 1000x90\nturn out 0 take 3\nturn out 90 take 0\nend\n")
    OUTPUT = RECKON["reckoned"](SESSION)

    def file(self, data):
        with tempfile.NamedTemporaryFile(delete=False) as file:
            file.write(data)
        self.addCleanup(os.remove, file.name)
        return file.name

    def test_words(self):
        session, data = self.file(self.SESSION), self.file(self.OUTPUT)
        ran = run_tool("output.py", "picture", data, "--session", session)
        self.assertEqual((ran.returncode, ran.stderr, tree.fromstring(ran.stdout).tag), (0, "", SVG + "svg"))
        for words in ([data], [], [data, "--session"], [data, "--session", session, "--sink", "out"], [data, "whole", "--session", session]):
            ran = run_tool("output.py", "picture", *words)
            self.assertEqual((ran.returncode, ran.stdout, ran.stderr[:21]), (2, "", "What `pulse_rw replay"))

    def test_a_session_that_is_not_whole(self):
        session, data = self.file(self.SESSION[:-1]), self.file(self.OUTPUT)
        said = f"{session}: refused at {len(self.SESSION) - 1}: truncated\n"
        for word in ("picture", "show"):
            ran = run_tool("output.py", word, data, "--session", session)
            self.assertEqual((ran.returncode, ran.stdout, ran.stderr), (1, "", said))

    def test_an_output_that_ends_early(self):
        """It is drawn as far as it goes: without the record of the turn there is no frame that was played."""
        session = self.file(self.SESSION)
        for cut, said, played in ((1, "it has no end byte", "90 frames played"), (9, "the output ends within the record", "0 frames played")):
            ran = run_tool("output.py", "picture", self.file(self.OUTPUT[:-cut]), "--session", session)
            self.assertEqual(ran.returncode, 1)
            self.assertIn(said, ran.stderr)
            self.assertIn(played, texts(lanes(tree.fromstring(ran.stdout), "sink")[0]))

    def test_the_picture_of_the_readme(self):
        with open(os.path.join(TOP, "examples", "two_clients.prs"), "rb") as file:
            session = file.read()
        drawing, fault = picture.picture(RECKON["reckoned"](session), read_session(session))
        self.assertEqual((drawing, fault), (text_of("docs", "two_clients.svg"), None))

    def test_the_output_of_another_session(self):
        other = self.file(make(SINK + AUTH + CREATE + "turn out 0 take 2\nturn out 80 take 0\nend\n"))
        ran = run_tool("output.py", "picture", self.file(self.OUTPUT), "--session", other)
        self.assertEqual((ran.returncode, ran.stdout), (1, ""))
        self.assertIn("it isn't the output of this session", ran.stderr)
