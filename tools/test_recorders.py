"""Tests of record streams: their commands as bytes, what an output tells of them, and their sound as WAV files."""

import os
import subprocess
import sys
import tempfile
import unittest

HERE = os.path.dirname(os.path.abspath(__file__))
TOP = os.path.dirname(HERE)
sys.path[:0] = [HERE, os.path.join(TOP, "conformance")]
sys.dont_write_bytecode = True

import monitors
import output
import reckon
import strict
import wire
from account import segments
from maker import make
from recording import read_session
from records import Records
from short import short
from teller import show
from testing import FRONT, SINK, frame_of
from words import Wrong

SPECIFIED = "61030100" "00bb80" "6d0100"
CREATE = bytes.fromhex("4c00000005" "4c00000009" + SPECIFIED + "4cffffffff" "4e" "4cffffffff" "30" "4cffffffff" "303030303030303030" "504e" "4cffffffff")
CREATED = "4c00000002" "4c00000009" "4c00000000" "4c00000000" "4c00400000" "4c00010000" + SPECIFIED + "4c00000000" "746f75742e6d6f6e69746f7200" "30" "550000000000000000"
CREATE_TEXT = "create-record 1 tag 9 s16le 1 48000 map 0"
PLAYED = "create 1 tag 1 s16le 1 48000 map 0 prebuf 0\ndata 1 stream 0 1000x3\nturn out 0 take 3\nturn out 2 take 0\nend\n"


def sent(conn, frame):
    return b"\1" + conn.to_bytes(4, "big") + len(frame).to_bytes(4, "big") + frame


def created(conn, stream=0, specified=SPECIFIED):
    """The reply of a record stream with this number."""
    text = CREATED.replace("4c00000000", f"4c{stream:08x}", 1).replace(SPECIFIED, specified)
    return sent(conn, wire.packet_frame(bytes.fromhex(text)))


def data(conn, stream, sound):
    return sent(conn, wire.frame_of(stream, 0, 0, bytes.fromhex(sound)))


def unbroken(text):
    return text.replace(" \\\n   ", "")


class Commands(unittest.TestCase):
    def test_bytes(self):
        self.assertEqual(frame_of(CREATE_TEXT)[20:], CREATE)
        self.assertEqual(frame_of("delete-record 1 tag 7 stream 3")[20:].hex(), "4c00000006" "4c00000007" "4c00000003")

    def test_later_fields(self):
        for version, bools in ((13, 0), (14, 1), (15, 3), (16, 3), (17, 3), (18, 3)):
            front = SINK + f"connect 1\nauth 1 tag 0 version {version}\n"
            self.assertEqual(frame_of(CREATE_TEXT, front)[20:], CREATE + b"0" * bools)
            self.assertEqual(len(monitors.fields_at(version)), 18 + bools)
        for words, flags in (("early_requests", "100"), ("dont_inhibit_auto_suspend", "010"), ("fail_on_suspend", "001")):
            text = SINK + f"connect 1\nauth 1 tag 0 version 18\n{CREATE_TEXT} {words}\nend\n"
            self.assertEqual(read_session(make(text)).events[-2][2][-3:], flags.encode())
            self.assertEqual(unbroken(show(make(text))), text)

    def test_fields(self):
        for words, at, said in (("index 2", 20, "4c00000002"), ("source a", 25, "746100"), ("maxlength 4", 26, "4c00000004"), ("corked", 31, "31"),
                                ("fragsize 6", 32, "4c00000006"), ("no_remap", 37, "31"), ("peak_detect", 44, "31"), ("direct_input 8", 48, "4c00000008")):
            packet = frame_of(f"{CREATE_TEXT} {words}")[20:]
            self.assertEqual(packet[at:].hex()[: len(said)], said, words)
            self.assertEqual(packet[:at], CREATE[:at])


class Outputs(unittest.TestCase):
    SESSION = read_session(make(FRONT + CREATE_TEXT + "\nend\n"))
    TOLD = "sent 1 reply tag 9 create-record stream 0 output 0 maxlength 4194304 fragsize 65536 spec s16le 1 48000 map 0 index 0 source out.monitor suspended no usec 0\n"

    def told(self, said, session=SESSION):
        return unbroken(output.show(said + b"\0", session)[0])

    def test_data_is_told_by_the_format_of_its_reply(self):
        said = created(1) + data(1, 0, "e803e803") + data(1, 1, "e803") + data(2, 0, "e803") + data(1, 0, "e8")
        told = self.TOLD + "sent 1 data stream 0 1000x2\nsent 1 data stream 1 hex e803\nsent 2 data stream 0 hex e803\nsent 1 data stream 0 hex e8\nend\n"
        self.assertEqual(self.told(said), told)
        self.assertEqual(self.told(said, None), told)

    def test_a_number_that_comes_again(self):
        said = created(1) + data(1, 0, "e803") + created(1, 0, "610401" "0000bb80" "6d0100") + data(1, 0, "03e8") + created(1, 7) + data(1, 7, "0100")
        lines = [line for line in self.told(said).splitlines() if "data" in line]
        self.assertEqual(lines, ["sent 1 data stream 0 1000", "sent 1 data stream 0 1000", "sent 1 data stream 7 1"])

    def test_frames_that_no_record_stream_has(self):
        for frame in (wire.frame_of(0, 1, 0, b"ab"), wire.frame_of(0, 0, 1, b"ab"), wire.frame_of(0, 0, 0, b""), wire.frame_of(0, 0, 0, b"ab") + b"c"):
            self.assertRegex(self.told(sent(1, frame)), "^sent 1 bytes hex [0-9a-f x]+\nend\n$")

    def test_long_sounds_are_told_short(self):
        said = "".join(f"{value & 0xFFFF:04x}" for value in range(256, 266))
        line = short(self.told(created(1) + data(1, 0, said))).splitlines()[1]
        self.assertRegex(line, "^sent 1 data stream 0 ~[0-9]+x10$")

    def test_a_picture_leaves_its_sound_out(self):
        played = bytes.fromhex("03" "00" "00000001" "e803")
        found, fault = segments(created(1) + played + data(1, 0, "e803") + created(1, 1) + b"\0", self.SESSION.sinks)
        self.assertEqual(([len(records) for records, _ in found], fault), ([1, 1], None))


class Sounds(unittest.TestCase):
    SESSION = read_session(make(FRONT + "end\n"))

    def test_what_a_record_stream_was_sent(self):
        said = created(1) + created(1, 1) + data(1, 0, "e803feff") + data(1, 1, "0100") + data(2, 0, "0200") + data(1, 0, "0300") + b"\0"
        for conn, stream, sound in ((1, 0, "e803feff0300"), (1, 1, "0100")):
            made, fault = output.wav_of_record(said, self.SESSION, conn, stream)
            self.assertEqual((made[44:].hex(), fault), (sound, None))
            self.assertEqual(made[20:36].hex(), "01000100" "80bb0000" "00770100" "02001000")
        for conn, stream in ((2, 0), (1, 2)):
            self.assertRaisesRegex(Wrong, f"no record stream {stream} of connection {conn}", output.wav_of_record, said, self.SESSION, conn, stream)

    def test_the_last_of_its_number(self):
        said = created(1) + data(1, 0, "e803") + created(1, 0, "610401" "0000bb80" "6d0100") + data(1, 0, "03e7") + b"\0"
        self.assertEqual(output.wav_of_record(said, self.SESSION, 1, 0)[0][44:].hex(), "e703")

    def test_an_output_that_ends_early(self):
        made, fault = output.wav_of_record(created(1) + data(1, 0, "e803"), self.SESSION, 1, 0)
        self.assertEqual(made[44:].hex(), "e803")
        self.assertIn("the sound is what was sent until then", fault)

    def test_the_command(self):
        with tempfile.TemporaryDirectory() as work:
            names = [os.path.join(work, name) for name in ("a.prs", "a.out")]
            for name, said in zip(names, (make(FRONT + "end\n"), created(1) + data(1, 0, "e803") + b"\0")):
                with open(name, "wb") as file:
                    file.write(said)
            run = lambda *words: subprocess.run([sys.executable, "-B", os.path.join(HERE, "output.py"), "wav", names[1], *words], capture_output=True)
            ran = run("--session", names[0], "--record", "1", "0")
            self.assertEqual((ran.returncode, ran.stdout[44:].hex(), ran.stderr), (0, "e803", b""))
            for words in (("--record", "1", "0"), ("--session", names[0], "--record", "1"), ("--session", names[0]),
                          ("--session", names[0], "--sink", "out", "--record", "1", "0")):
                self.assertEqual(run(*words).returncode, 2)
            for words in (("1", "1"), ("1", "none"), ("x", "0")):
                self.assertEqual(run("--session", names[0], "--record", *words).returncode, 1)


class Reckoner(unittest.TestCase):
    """What the mode must give, against bytes of its own definition."""

    def reckoned(self, lines):
        return monitors.reckoned(make(FRONT + lines)), reckon.reckoned(make(FRONT + "\n".join(line for line in lines.split("\n") if "record" not in line)))

    def test_a_reply_and_what_was_played(self):
        came, plain = self.reckoned(f"{CREATE_TEXT}\n{PLAYED}")
        at = len(sent(1, wire.packet_frame(bytes(15))))
        self.assertEqual(came, plain[:at] + created(1) + plain[at:-1] + bytes.fromhex("01" "00000001" "00000018" "00000004" "00000000" "0000000000000000" "00000000" "e803e803") + b"\0")
        came, _ = self.reckoned(f"{CREATE_TEXT} fragsize 2\n{PLAYED}")
        one = bytes.fromhex("01" "00000001" "00000016" "00000002" "00000000" "0000000000000000" "00000000" "e803")
        self.assertTrue(came.endswith(bytes.fromhex("03" "00" "00000002" "e803e803") + one + one + b"\0"))

    def test_faults(self):
        """Each byte of each field in turn is another one."""
        kinds = monitors.HEAD + [kind for _, kind in monitors.fields_at(13)]
        self.assertEqual(strict.read(CREATE, kinds)[1], None)
        self.assertEqual(strict.read(CREATE + b"1", kinds)[1], (strict.LEFT, len(CREATE)))
        self.assertEqual([strict.read(CREATE[:end], kinds)[1] for end in range(len(CREATE))], [(strict.SHORT, end) for end in range(len(CREATE))])
        for at, byte, fault in ((0, b"M", (6, 0)), (5, b"M", (6, 5)), (10, b"b", (6, 10)), (12, b"\x21", (8, 10)), (17, b"n", (6, 17)),
                                (18, b"\x21", (8, 17)), (18, b"\2", (6, 21)), (25, b"x", (6, 25)), (31, b"2", (6, 31)), (46, b"Q", (6, 46))):
            self.assertEqual(strict.read(CREATE[:at] + byte + CREATE[at + 1 :], kinds)[1], fault, (at, byte))

    def test_values_of_properties(self):
        kinds = [strict.PROPERTIES]
        entry = lambda key, length, count, value: b"P" + wire.text(key) + wire.number(length) + b"x" + count.to_bytes(4, "big") + value + b"N"
        for said, fault in ((entry(b"a", 1, 1, b"b"), None), (entry(b"", 1, 1, b"b"), (8, 1)), (entry(b"a", 1, 2, b"bc"), (8, 9)),
                            (entry(b"\x80", 1, 1, b"b"), (8, 1)), (entry(b"a", 65_537, 65_537, b""), (8, 9)), (entry(b"a", 2, 2, b"b")[:-1], (7, 15))):
            self.assertEqual(strict.read(said, kinds)[1], fault, said)

    def test_what_reaches_the_server(self):
        """The server gives for the sieved session what the mode gives without its own replies, its sound, and the offsets of faults."""
        for text in (monitors.throw(3, 60), FRONT + f"{CREATE_TEXT}\n{PLAYED}", FRONT + CREATE_TEXT + "\npacket 1 hex 4c00000006 4c00000001\nend\n"):
            session = make(text)
            sinks, kept = read_session(session).sinks, []
            for record in Records(monitors.reckoned(session), sinks):
                own = record[0] == 1 and (record[2][4:8] != b"\xff" * 4 or self.is_own(record, session))
                kept += [] if own else [record[:2] if record[0] == 2 else record]
            came = [record[:2] if record[0] == 2 else record for record in Records(reckon.reckoned(monitors.sieved(session)), sinks)]
            self.assertEqual(came, kept)

    def is_own(self, record, session):
        """Whether this answers one of the mode's commands: their tags are no other commands'."""
        tag = int.from_bytes(record[2][26:30], "big")
        words = [command for command, _ in output.Asked(*session_parts(session)).of(record[1])(tag)]
        return words != [] and all(word.endswith("-record") for word in words)


def session_parts(session):
    read = read_session(session)
    return read.cookie, read.events


if __name__ == "__main__":
    unittest.main()
