"""Tests of px: each word has a page and does what its tool does, and what is wrong is told with the file, the place and the cause."""

import os
import re
import sys
import unittest

from testing import TOOLS, TOP, InARoom, run


def px(*words, **how):
    return run(sys.executable, "-B", os.path.join(TOOLS, "px"), *words, **how)


class OneCommand(InARoom):
    def test_each_word_has_a_page(self):
        status, out, said = px("--help")
        self.assertEqual((status, said), (0, ""))
        words = re.findall(r"^  px (\w+) \.\.", out, re.M)
        self.assertEqual(words, ["session", "output", "picture", "header", "believed", "package"])
        for word in words:
            status, page, said = px(word, "--help")
            self.assertEqual((status, said), (0, ""), word)
            self.assertGreater(len(page), 100, word)

    def test_it_does_what_the_tools_do(self):
        example = os.path.join(TOP, "examples", "auth.prs")
        self.assertEqual(px("session", "show", example), run(sys.executable, "-B", os.path.join(TOOLS, "session.py"), "show", example))

    def test_errors_name_the_file_the_place_and_the_cause(self):
        text, bad = self.path("a.txt", b"sink out s16le 1 48000 map 0 guard 1 depth 9\nfoo 1\n"), self.path("b.txt", b"# one\n\xff\n")
        cut, out, whole = self.path("cut.prs", b"PRS1"), self.path("x.out", b"x"), os.path.join(TOP, "examples", "two_clients.prs")
        for words, said in (
            (("session", "make", text), f"{text}:2: foo begins no line"),
            (("session", "at", "999", text), f"{text}:2: foo begins no line"),
            (("session", "make", bad), f"{bad}:2: no text in UTF-8: the byte 0xff"),
            (("session", "make", "/gone.txt"), "/gone.txt: No such file or directory"),
            (("session", "show", cut), f"{cut}: refused at 4: truncated"),
            (("output", "show", out), f"{out}: no record begins with 120, at 0"),
            (("picture", out, "--session", cut), f"{cut}: refused at 4: truncated"),
            (("header", "out:foo"), "out:foo: foo is no format: there are u8, alaw,"),
            (("header", "a", "a"), "a a: there are 1 to 16 sinks, each with a name of its own"),
            (("header", "out", "--depth", "x"), "out: --depth is a number, which x isn't"),
            (("header", ""), '"": a name has 1 to 64'),
            (("output", "wav", out, "--session", whole, "--sink", "nope"), f"{out}: {whole} has no sink nope: it has out"),
            (("believed", "--check", bad), f"{bad}:2: no text in UTF-8: the byte 0xff"),
            (("believed", "--write", bad), f"{bad}:2: no text in UTF-8: the byte 0xff"),
            (("believed", "--check", out), f"{out}: a table stands between one line"),
            (("package", "--program", TOOLS), f"package.sh: {TOOLS}: it is no program"),
            (("package", "--program", "/gone"), "package.sh: /gone: there is no such file"),
        ):
            status, wrote, err = px(*words)
            self.assertEqual((status, wrote, err[: len(said)]), (1, "", said), words)
        for words in ((), ("other",), ("session",), ("picture", out), ("believed", "other"), ("package", "other")):
            self.assertEqual(px(*words)[0:2], (2, ""), words)
        for words, said in ((("",), 'px: there is no word "";'), (("help", "other"), "px: there is no word other;"), (("picture", out, "--sink", "out"), "Draws a run:")):
            status, wrote, err = px(*words)
            self.assertEqual((status, wrote, err[: len(said)]), (2, "", said), words)
        self.assertEqual(px("help", "header"), px("header", "--help"))


if __name__ == "__main__":
    unittest.main()
