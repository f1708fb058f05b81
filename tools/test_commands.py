"""Tests of the commands as people use them: short texts, lines of offsets, counts that are asked for, and ends that fail."""

import os
import stat
import subprocess
import sys
import tempfile
import unittest

from maker import line_at, make
from short import short
from testing import AUTH_TEXT, TOOLS, TOP, run_tool
from words import Wrong

SESSION = os.path.join(TOP, "examples", "two_clients.prs")


class Short(unittest.TestCase):
    def test_sounds(self):
        for text, said in (
            ("played out 50 frames: 0x10 2000x10 0x30\n",) * 2,
            ("played out 12 frames: 1 2 3 4 5 -6 7 8 9 10 11 12\n", "played out 12 frames: ~12x12\n"),
            ("played out 90 frames: 0x40 1/-9 2/1x9 3/1 4/4 5/5 6/6 7/7 8/8 -3x34\n", "played out 90 frames: 0x40 ~9x16 -3x34\n"),
            ("data 1 stream 0 seek absolute offset -4 1 2 3 4 5 6 \\\n    7 8 -9\nend\n",
             "data 1 stream 0 seek absolute offset -4 ~9x9\nend\n"),
            ("data 1 stream 0 tone 440 amplitude 9 frames 5\n",) * 2,
            ("packet 1 hex 00 01 02 03 04 05 06 07 08x100\n", "packet 1 hex (108 bytes)\n"),
            ("packet 1 hex 00 01x20\n",) * 2,
        ):
            self.assertEqual(short(text), said)

    def test_commands(self):
        said = run_tool("session.py", "show", SESSION).stdout
        self.assertLess(len(said), 8_000)
        self.assertEqual(len(said.splitlines()), said.count("\n"))
        self.assertNotIn("\\\n", said)
        whole = run_tool("session.py", "show", SESSION, "whole").stdout
        with open(SESSION, "rb") as file:
            self.assertEqual(make(whole), file.read())


class Lines(unittest.TestCase):
    def test_each_event(self):
        text = AUTH_TEXT + "# a comment\nturn out 0 take 0\nend\n"
        number = text.split("\n").index("turn out 0 take 0") + 1
        for offset, found in ((590, number), (599, number), (600, number + 1), (0, 1), (279, 1)):
            self.assertEqual(line_at(text, offset)[0], found)
        self.assertEqual(line_at(text, 590)[1], "turn out 0 take 0")
        formed = "# a comment\nform 2\ncookie 00x256\n" + AUTH_TEXT + "stop out\nend\n"
        stop = formed.split("\n").index("stop out") + 1
        for offset, found in ((0, 2), (3, 2), (4, 3), (259, 3), (260, 4), (279, 4), (280, 5), (594, stop), (595, stop), (596, stop + 1)):
            self.assertEqual(line_at(formed, offset)[0], found)
        self.assertRaisesRegex(Wrong, "the session has 601 bytes, and so none at 601", line_at, text, 601)

    def test_command(self):
        with tempfile.NamedTemporaryFile("w", suffix=".txt") as file:
            file.write("sink out s16le 1 48000 map 0 guard 10 depth 100\nturn out 1 take 0\nend\n")
            file.flush()
            ran = run_tool("session.py", "at", "280", file.name)
            self.assertEqual((ran.returncode, ran.stdout), (0, f"{file.name}:2: turn out 1 take 0\n"))
            self.assertEqual(run_tool("session.py", "at", "999", file.name).returncode, 1)
            self.assertEqual(run_tool("session.py", "at", "-1", file.name).returncode, 2)


class Asked(unittest.TestCase):
    """`take all`, answered by a program that always says the same."""

    def program(self, said):
        file = tempfile.NamedTemporaryFile("w", suffix=".sh", delete=False)
        self.addCleanup(os.remove, file.name)
        with file:
            file.write(f"#!/bin/sh\ncat >/dev/null\necho '{said}' >&2\nexit 1\n")
        os.chmod(file.name, stat.S_IRWXU)
        return file.name

    def made(self, line, said, front=""):
        before = os.environ.get("PULSE_RW_PROGRAM")
        os.environ["PULSE_RW_PROGRAM"] = self.program(said)
        try:
            return make(front + AUTH_TEXT + line + "\nend\n")
        finally:
            os.environ.pop("PULSE_RW_PROGRAM") if before is None else os.environ.update(PULSE_RW_PROGRAM=before)

    def test_counts(self):
        line = "pulse_rw: refused at 590: too many, 4294967295 of 7"
        self.assertEqual(self.made("turn out 3 take all", line), make(AUTH_TEXT + "turn out 3 take 7\nend\n"))
        self.assertEqual(self.made("collect out take all", line), make(AUTH_TEXT + "collect out take 7\nend\n"))
        self.assertEqual(self.made("turn out 3 take all", line, "form 2\n"), make("form 2\n" + AUTH_TEXT + "turn out 3 take 7\nend\n"))

    def test_other_answers(self):
        for said in ("pulse_rw: refused at 590: too many, 3 of 0", "pulse_rw: refused at 590: live 1", "nothing"):
            self.assertRaisesRegex(Wrong, said.rpartition("590: ")[2], self.made, "turn out 3 take all", said)


class Ends(unittest.TestCase):
    def test_commas(self):
        head = "sink out s16le 1 48000 map 0 guard 10 depth 100\nconnect 1\n"
        for line in ("name 1 a=b, c=d", "name 1 a=b,c=d", "name 1 a=b,"):
            self.assertRaisesRegex(Wrong, "3: .* has a comma", make, head + line + "\nend\n")
        make(head + 'name 1 a="b,c" d="e, f"\nend\n')

    def test_folders_and_missing_files(self):
        for words in (("session.py", "show", "/"), ("session.py", "make", "/"), ("output.py", "show", "/none"),
                      ("output.py", "show", SESSION, "--session", "/")):
            ran = run_tool(*words)
            self.assertEqual(ran.returncode, 1)
            self.assertEqual(ran.stderr.count("\n"), 1)
            self.assertRegex(ran.stderr, "^/(none)?: ")

    def test_a_full_disk(self):
        for words in (("session.py", "show", SESSION), ("session.py", "make", SESSION.replace(".prs", ".txt"))):
            with open("/dev/full", "w") as full:
                ran = subprocess.run([sys.executable, "-B", os.path.join(TOOLS, words[0]), *words[1:]], stdout=full, stderr=subprocess.PIPE, text=True)
            self.assertEqual((ran.returncode, ran.stderr), (1, "output: No space left on device\n"))

    def test_a_closed_pipe(self):
        tool = os.path.join(TOOLS, "session.py")
        ran = subprocess.run(f"{sys.executable} -B {tool} show {SESSION} whole | head -n 1", shell=True, capture_output=True, text=True)
        self.assertEqual((ran.stdout.count("\n"), ran.stderr), (1, ""))
