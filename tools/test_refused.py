"""Tests of what is refused: texts that make no session, and bytes that are none."""

import os
import subprocess
import sys
import tempfile
import unittest

from maker import make
from teller import show
from testing import AUTH, CONNECT, FRONT, FRONT_18, HEADER, SECOND, SINK, TOOLS, TOP, contents
from words import Wrong


class Refused(unittest.TestCase):
    def test_texts(self):
        for text, cause in (
            ("", "1: the session has no end"),
            (SINK, "2: the session has no end"),
            ("end", "1: a session has at least one sink before its first event"),
            (SINK + "end\n\nconnect 1", "4: nothing may follow the end"),
            (SINK + "connect 1\n" + SINK, "3: sink belongs before the first event"),
            (SINK + SINK, "2: there are at most 16 sinks, and each has a name of its own"),
            ("sink @a s16le 1 1 map 0 guard 0 depth 1", "1: a sink's name has"),
            ("sink a alaw 1 1 map 0 guard 0 depth 1", "1: a sink can't have the format alaw"),
            ("sink a s16le 33 1 map 0 guard 0 depth 1", "1: the count of channels is from 1 to 32, and 33 isn't"),
            ("sink a s16le 1 0 map 0 guard 0 depth 1", "1: a sink's rate is from 1 to 192000, and 0 isn't"),
            ("sink a s16le 2 1 map 0 guard 0 depth 1", "1: the map has 1 positions for 2 channels"),
            ("sink a s16le 1 1 map 51 guard 0 depth 1", "1: a position is from 0 to 50, and 51 isn't"),
            ("sink a s16le 1 1 map 0 guard 9 depth 8", "1: the guard of 9 frames is above the depth of 8"),
            ("sink a s16le 1 1 map 0 depth 8", "1: depth stands where guard should"),
            ("cookie 00x255", "1: a cookie has 256 bytes, and this one has 255"),
            (SINK + "connect", "2: the line ends where a connection should stand"),
            (SINK + "connect x", "2: a connection is a number, which x isn't"),
            (SINK + "connect 1 2", "2: 2 is too much here"),
            (SINK + "# one\n\nturn in 0 take 0", "4: no sink is named in"),
            (SINK + "turn out 0", "2: the end of the line stands where take should"),
            (SINK + "turn out -1 take 0", "2: a count of frames is from 0 to 4294967295, and -1 isn't"),
            (SINK + "bytes 1 hex 001", "2: 001 is too much here"),
            (SINK + "split 0", "2: a piece's bytes is from 1 to 65536, and 0 isn't"),
            ("form 2\n" + SINK + "split 1048577", "3: a piece's bytes is from 1 to 1048576, and 1048577 isn't"),
            ("form 3\n" + SINK, "1: a form is from 1 to 2, and 3 isn't"),
            (SINK + "form 2\n", "2: form belongs before all other lines"),
            ("form 2\nform 2\n", "2: form belongs before all other lines"),
            ("cookie 00x256\nform 2\n", "2: form belongs before all other lines"),
            (SINK + "stop out", "2: a session of form 1 has no stop: its first line says `form 2`"),
            ("form 2\n" + SINK + "stop in", "3: no sink is named in"),
            ("form 2\n" + SINK + "stop out 0", "3: 0 is too much here"),
            (SINK + "turn out 0 take 4294967296", "2: what is taken is from 0 to 4294967295, and 4294967296 isn't"),
            ("form 2\n" + SINK + "turn out 0 take 18446744073709551616", "3: what is taken is from 0 to 18446744073709551615"),
            (SINK + "play 1", "2: play begins no line"),
            (SINK + "delete 1", "2: stream is missing"),
            (SINK + "delete 1 stream 0 stream 1", "2: stream is said twice"),
            (SINK + "delete 1 stream 0 loudly", "2: loudly is no field of this command"),
            (SINK + "create 1 map 0", "2: the format is missing"),
            (SINK + "auth 1", "2: version is missing"),
            (FRONT + "attributes 1 stream 0 early_requests", "4: early_requests is no field of this command at version 13"),
            (FRONT + "create 1 at 17 s16le 1 1 map 0 passthrough", "4: passthrough is no field of this command at version 17"),
            (FRONT_18 + "create 1 s16le 1 1 map 0 volume_set yes", "4: on or off should stand where yes does"),
            (FRONT + "server-info 1 at 12", "4: a packet's version is from 13 to 18, and 12 isn't"),
            (FRONT + "server-info 1 at 13 at 14", "4: at is said twice"),
            (SINK + "mute 1 input 0", "2: on or off is missing"),
            (SINK + "cork 1 stream 0 maybe", "2: maybe is no field of this command"),
            (SINK + "data 1 stream 0 5", "2: connection 1 has made no stream 0: say its format"),
            (SINK + "data 1 stream 0 as s16le 1 48000", "2: a frame carries 1 to 16777216 bytes, and this one 0"),
            (SINK + "data 1 stream 0 as s16le 1 48000 40000", "2: a sample of s16le is from -32768 to 32767"),
            (SINK + "data 1 stream 0 as s16le 2 48000 1/2/3", "2: 1/2/3 isn't frames of 2 channels"),
            (SINK + "data 1 stream 0 as s16le 1 48000 1e3", "2: 1e3 isn't samples"),
            (SINK + "data 1 stream 0 as s16le 1 48000 0x999999999", "2: a frame carries at most 16777216 bytes"),
            (SINK + "data 1 stream 0 as float32le 1 48000 0", "2: samples of format float32le can't be said"),
            (SINK + "data 1 stream 0 seek back 0", "2: back is no seek mode"),
            (SINK + "data 1 stream none hex 00", "2: a stream is a number, which none isn't"),
            (SINK + 'name 1 a="b', "2: a quote isn't closed"),
            (SINK + 'name 1 a="\\n"', "2: \\n is no escape"),
            (SINK + "connect 1 \\\n # a comment\n", "4: the session has no end"),
        ):
            with self.assertRaises(Wrong) as caught:
                make(text)
            self.assertEqual(str(caught.exception)[: len(cause)], cause)

    def test_sessions(self):
        whole = HEADER + CONNECT + AUTH + b"\0"
        for session, cause in (
            (b"", "refused at 0: truncated"), (b"PRS", "refused at 3: truncated"), (b"PRX", "refused at 0: magic"),
            (HEADER, "refused at 280: truncated"), (HEADER + b"\1\0\0", "refused at 283: truncated"),
            (whole + b"\0", "refused at 591: trailing"), (HEADER + b"\7", "refused at 280: kind 7"),
            (HEADER + bytes.fromhex("020000000100010001"), "refused at 280: too long 65537"),
            (HEADER[:260] + b"\0", "refused at 260: header"), (HEADER[:260] + b"\1\0", "refused at 261: header"),
            (HEADER[:-1] + b"\5", "refused at 276: header"),
            (b"PRS2", "refused at 4: truncated"), (b"PRS3", "refused at 0: magic"), (b"PRT2", "refused at 0: magic"),
            (SECOND, "refused at 280: truncated"), (SECOND + b"\7", "refused at 281: truncated"), (SECOND + b"\x08", "refused at 280: kind 8"),
            (SECOND + bytes.fromhex("02000000010000000000100001"), "refused at 280: too long 1048577"),
            (SECOND + bytes.fromhex("02000000010000000000010001"), "refused at 293: truncated"),
            (SECOND + bytes.fromhex("050000000000000000"), "refused at 289: truncated"), (SECOND + b"\0\0", "refused at 281: trailing"),
        ):
            with self.assertRaises(Wrong) as caught:
                show(session)
            self.assertEqual(str(caught.exception), cause)
        for at in range(len(whole)):
            with self.assertRaises(Wrong):
                show(whole[:at])

    def test_program(self):
        """A refusal names file, line and cause, has status 1, and nothing is written."""
        with tempfile.TemporaryDirectory() as work:
            name = os.path.join(work, "bad.txt")
            with open(name, "w") as file:
                file.write(SINK + "connect 1\nplay 1\nend\n")
            run = self.run_tool("session.py", "make", name)
            self.assertEqual((run.returncode, run.stdout), (1, b""))
            self.assertEqual(run.stderr.decode(), f"{name}:3: play begins no line\n")
            self.assertEqual(self.run_tool("session.py", "make", name + "x").returncode, 1)
            self.assertEqual(self.run_tool("session.py").returncode, 2)
            self.assertEqual(self.run_tool("output.py", "wav", name).returncode, 2)
            auth = os.path.join(TOP, "examples", "auth.txt")
            run = self.run_tool("session.py", "make", auth)
            self.assertEqual((run.returncode, run.stdout), (0, contents("examples", "auth.prs")))

    def run_tool(self, tool, *words):
        return subprocess.run([sys.executable, "-B", os.path.join(TOOLS, tool), *words], capture_output=True)
