"""Tests of the header that a server starts with."""

import os
import stat
import subprocess
import sys
import tempfile
import unittest

from recording import Place, read_header
from testing import TOOLS, run_tool


def made(*words, **environment):
    return run_tool("header.py", *words, env=dict(os.environ, **environment))


def run_bytes(*words, **environment):
    tool = os.path.join(TOOLS, "header.py")
    return subprocess.run([sys.executable, "-B", tool, *words], capture_output=True, env=dict(os.environ, **environment))


class Header(unittest.TestCase):
    def setUp(self):
        self.folder = tempfile.TemporaryDirectory()
        self.cookie = os.path.join(self.folder.name, "cookie")
        with open(self.cookie, "wb") as file:
            file.write(bytes(range(256)))

    def tearDown(self):
        self.folder.cleanup()

    def header(self, *words):
        """The header that these words make, read again."""
        path = os.path.join(self.folder.name, "desk.hdr")
        with open(path, "wb") as file:
            said = run_bytes(*words, "--cookie", self.cookie)
            file.write(said.stdout)
        self.assertEqual(said.returncode, 0, said.stderr)
        place = Place(said.stdout)
        _, cookie, sinks = read_header(place)
        self.assertEqual((cookie, place.at), (bytes(range(256)), len(said.stdout)))
        return sinks

    def test_sinks(self):
        plain, wide = self.header("out", "wide:s32le:6:44100")
        self.assertEqual((plain.name, plain.spec, plain.positions, plain.guard, plain.depth), (b"out", (3, 2, 48_000), [1, 2], 480, 4_800))
        self.assertEqual((wide.spec, wide.positions, wide.guard, wide.depth), ((7, 6, 44_100), [1, 2, 5, 6, 3, 7], 441, 4_410))

    def test_numbers(self):
        (sink,) = self.header("out:u8:1:8000", "--guard", "0", "--depth", "50")
        self.assertEqual((sink.spec, sink.positions, sink.guard, sink.depth), ((0, 1, 8_000), [0], 0, 50))

    def test_wrong_words(self):
        for words, status in (
            ((), 2),
            (("--guard", "5"), 2),
            (("--what", "out"), 2),
            (("out", "out"), 1),
            (("out:float32le",), 1),
            (("a/b",), 1),
            (("@out",), 1),
            (("out:s16le:33",), 1),
            (("out", "--depth", "0"), 1),
            (("out", "--guard", "9", "--depth", "8"), 1),
            (("out", "--cookie", self.folder.name), 1),
        ):
            said = made(*words)
            self.assertEqual((said.returncode, said.stdout), (status, ""), words)
            self.assertNotIn("Traceback", said.stderr)

    def test_own_cookie(self):
        """The user's own cookie is made once, for the user alone, and taken from then on."""
        home = self.folder.name
        first = run_bytes("out", HOME=home, PULSE_COOKIE="")
        path = os.path.join(home, ".config", "pulse", "cookie")
        self.assertEqual(stat.S_IMODE(os.stat(path).st_mode), 0o600)
        with open(path, "rb") as file:
            self.assertEqual(first.stdout[4:260], file.read())
        self.assertEqual(run_bytes("out", HOME=home, PULSE_COOKIE="").stdout, first.stdout)

    def test_what_has_a_cookie_is_its_owners_alone(self):
        path, text = (os.path.join(self.folder.name, name) for name in ("made", "text"))
        with open(text, "w", encoding="utf-8") as file:
            file.write("sink out s16le 1 48000 map 0 guard 10 depth 100\ncookie 01x256\nend\n")
        session = os.path.join(TOOLS, "..", "examples", "two_clients.prs")
        for words, mode in (
            (("header.py", "--cookie", self.cookie, "out"), 0o600),
            (("session.py", "make", text), 0o600),
            (("session.py", "show", session, "whole"), 0o600),
            (("session.py", "show", session), 0o644),
        ):
            with open(path, "wb") as file:
                os.chmod(path, 0o644)
                tool = [sys.executable, "-B", os.path.join(TOOLS, words[0]), *words[1:]]
                said = subprocess.run(tool, stdout=file, stderr=subprocess.PIPE)
            self.assertEqual((said.returncode, said.stderr, stat.S_IMODE(os.stat(path).st_mode)), (0, b"", mode), words)


if __name__ == "__main__":
    unittest.main()
