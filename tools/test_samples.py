"""Tests of samples: their commands as bytes, the reckoner of `replay --samples`, and the rows of `replay` by these words."""

import os
import sys
import unittest

HERE = os.path.dirname(os.path.abspath(__file__))
TOP = os.path.dirname(HERE)
sys.path[:0] = [HERE, os.path.join(TOP, "conformance")]
sys.dont_write_bytecode = True

import cached
import output
import renumbered
from maker import make
from recording import read_session
from teller import show
from testing import FRONT, SINK, frame_of

BEEP = "upload 1 tag 1 name beep s16le 1 48000 map 0 length 4\ndata 1 stream 0x80000000 as s16le 1 48000 1000x2\nfinish-upload 1 tag 2 stream 0x80000000\n"
PLAY = "play-sample 1 tag 8 volume 65536 name beep\n"
TURNS = "turn out 0 take 4\nturn out 2 take 0\n"


def told(text):
    session = make(text)
    return output.show(cached.reckoned(session), read_session(session))[0].replace(" \\\n   ", "").splitlines()


class Commands(unittest.TestCase):
    def test_bytes(self):
        """At each version the fields are the same."""
        for words, said in (
            ("upload 1 tag 1 name beep s16le 1 48000 map 0 length 4", "4c0000000f" "4c00000001" "746265657000" "6103010000bb80" "6d0100" "4c00000004" "504e"),
            ("delete-upload 1 tag 2 stream 2147483648", "4c00000010" "4c00000002" "4c80000000"),
            ("finish-upload 1 tag 2 stream 2147483648", "4c00000011" "4c00000002" "4c80000000"),
            (PLAY.strip(), "4c00000012" "4c00000008" "4cffffffff" "4e" "4c00010000" "746265657000" "504e"),
            ("play-sample 1 tag 8 index 2 sink a", "4c00000012" "4c00000008" "4c00000002" "746100" "4cffffffff" "4e" "504e"),
            ("remove-sample 1 tag 3 name beep", "4c00000013" "4c00000003" "746265657000"),
        ):
            for version in (13, 18):
                front = SINK + f"connect 1\nauth 1 tag 0 version {version}\n"
                self.assertEqual(frame_of(words, front)[20:].hex(), said)
                self.assertIn(f"\n{words}\nend\n", show(make(f"{front}{words}\nend\n")))


class Reckoner(unittest.TestCase):
    """What the mode must give, against bytes and counts that were worked by hand."""

    def test_a_beep(self):
        """After the reply to AUTH: the upload's number and length, a plain reply, the play's input, and two frames of 1000."""
        came = cached.reckoned(make(FRONT + BEEP + PLAY + TURNS + "end\n"))
        sent = lambda packet: bytes.fromhex("0100000001" f"{20 + len(packet) // 2:08x}{len(packet) // 2:08x}" "ffffffff" + 24 * "0" + packet)
        said = "4c00000002" "4c00000000" "4c00000012", "4c00000002" "4c00000001" "4c80000000" "4c00000004", "4c00000002" "4c00000002"
        said += ("4c00000002" "4c00000008" "4c00000000",)
        self.assertEqual(came, b"".join(map(sent, said)) + bytes.fromhex("03" "00" "00000002" "e803e803" "00"))

    def test_a_play_has_the_bytes_of_its_time(self):
        """Where a later upload takes the name, what plays goes on, and the next play has the other bytes."""
        other = BEEP.replace("0x80000000", "0x80000001").replace("1000x2", "7x2")
        for lines, sound in ((BEEP + PLAY + other, "1000x2"), (BEEP + PLAY + "remove-sample 1 name beep\n", "1000x2"), (BEEP + other + PLAY, "7x2")):
            self.assertEqual(told(FRONT + lines + TURNS + "end\n")[-2:], [f"played out 2 frames: {sound}", "end"])

    def test_the_most_samples(self):
        """256 are kept; one more only where one of its name or another goes. 16 times 256 is 4096, and 127 and 5 times 256 are clipped to 32767."""
        said = told(cached.thrown_by(["--crowded"]))
        finished = [line for line in said if "finish-upload" in line]
        self.assertEqual(len(finished), 256 + 1 + 1)
        first = next(at for at, line in enumerate(said) if "TOOLARGE" in line)
        self.assertEqual(sum("finish-upload" in line for line in said[:first]), 256)
        refused = ["514 BADSTATE", "515 TOOLARGE", "518 TOOLARGE", "521 NOENTITY", "523 TOOLARGE", "525 NOENTITY"]
        self.assertEqual([line.split(" ", 4)[4] for line in said if "error" in line], refused)
        self.assertEqual([line for line in said if line.startswith("played")], ["played out 2 frames: 4096x2", "played out 100 frames: 0x10 32767x2 0x88"])

    def test_the_most_bytes(self):
        """64 times 1,048,576 is 67,108,864: a byte more waits until the place of one is taken by a sample that is a byte shorter."""
        said = told(cached.thrown_by(["--largest"]))
        ends = ["finish" if "finish-upload" in line else line.split()[-1] for line in said if "finish-upload" in line or "error" in line]
        self.assertEqual(ends, ["TOOLARGE", *["finish"] * 64, "TOOLARGE", "finish", "TOOLARGE", "finish", "finish", "TOOLARGE"])

    def test_thrown_sessions_play_much(self):
        """Dice that play little would show little."""
        for number in (7, 2024):
            server = cached.played(make(cached.thrown_by(["--dice", str(number), "200"])))
            self.assertGreater(min(server.begun, server.ended, len(server.changes)), 30)
            self.assertTrue(server.clients[cached.HIDDEN].ended)


class Renumbered(unittest.TestCase):
    """A row of `replay` by `replay --samples`."""

    def test_lines(self):
        own = "client 0 name sample-cache module none driver pulse_rw properties application.name=sample-cache"
        for line, more in (
            ("sent 1 reply tag 1 name client 2", "sent 1 reply tag 1 name client 3"),
            ("sent 1 event new client index 9", "sent 1 event new client index 10"),
            ("sent 1 reply tag 1 input-info input 0 module none client 0 index 0", "sent 1 reply tag 1 input-info input 0 module none client 1 index 0"),
            ('sent 1 reply tag 5 client-infos client 0 name "client 4" module none / client 3 name null',
             f'sent 1 reply tag 5 client-infos {own} / client 1 name "client 4" module none / client 4 name null'),
            ("sent 1 reply tag 1 client-info client 0 name null", "sent 1 reply tag 1 client-info client 1 name null"),
            ("sent 1 error tag 2 NOENTITY", "sent 1 error tag 2 NOENTITY"),
        ):
            self.assertEqual(renumbered.told(line), more)

    def test_sessions(self):
        """The numbers in two commands are one more, however they are cut, and none stays none; nothing else is."""
        text = "{}\nkill-client 1 tag 1 client {}\nclient-info 1 tag 2 client {}\nclient-info 1 tag 3 client {}\nkill-input 1 tag 4 input 5\nend\n"
        for split in ("split none", "split 1", "split 7", "split 24"):
            lines = FRONT + text.format(split, 0, 255, "none")
            session = make(lines)
            self.assertEqual(renumbered.session_of(read_session(session), session), make(FRONT + text.format(split, 1, 256, "none")))

    def test_which(self):
        connects = lambda count: read_session(make(SINK + "".join(f"connect {conn}\n" for conn in range(count)) + "end\n")).events
        self.assertTrue(renumbered.fits(connects(63)))
        self.assertFalse(renumbered.fits(connects(64)))
        self.assertTrue(renumbered.fits(read_session(make(SINK + "connect 1\nclose 1\n" * 70 + "end\n")).events))
        self.assertFalse(renumbered.fits(read_session(make(SINK + "connect none\nend\n")).events))


if __name__ == "__main__":
    unittest.main()
