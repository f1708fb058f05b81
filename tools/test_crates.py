"""Tests of the map of the crates, over small texts of crates.txt with the pictures that they must give."""

import os
import shutil
import subprocess
import sys
import tempfile
import unittest

import crates
import needed
from words import Wrong

TOOLS = os.path.dirname(os.path.abspath(__file__))
TEXT = """# Each line: a crate, and those below it.

# base
low:
other: slab
pair: low other thiserror   # with a word on it

# program
app staticlib: pair
tests_low: low
"""
MAP = """```
 3  program  app
 2  base     pair
    program  tests_low
 1  base     low  other
```

longest chain (3): app > pair > other"""


def drawn(text):
    return "\n".join(crates.block(text))


def wide_text(count):
    return "# wide\n" + "".join(f"crate_{i:02}:\n" for i in range(count))


class Map(unittest.TestCase):
    def test_picture(self):
        self.assertEqual(drawn(TEXT), MAP)
        self.assertEqual(drawn("one:\n"), "```\n 1    one\n```\n\nlongest chain (1): one")

    def test_lines_in_any_order(self):
        upside = "# top\nc: b a\n# deep\nb: a\na:\n"
        self.assertEqual(drawn(upside), "```\n 3  top   c\n 2  deep  b\n 1  deep  a\n```\n\nlongest chain (3): c > b > a")

    def test_many_crates_are_wrapped(self):
        lines = drawn(wide_text(30)).split("\n")
        self.assertEqual(lines[1][:28], " 1  wide  crate_00  crate_01")
        self.assertEqual(lines[2][:28], "          crate_14  crate_15")
        self.assertEqual(lines[3], "          crate_28  crate_29")
        self.assertEqual(lines[4], "```")
        self.assertEqual([len(line) for line in lines[1:3]], [148, 148])

    def test_wrong_texts(self):
        for text, said in (
            ("a: b\n", "crates.txt: a stands on b, which is no crate here"),
            ("a: a\n", "crates.txt: a crate stands on itself: a > a"),
            ("z: a\na: b\nb: c slab\nc: d a\nd:\n", "crates.txt: a crate stands on itself: a > b > c > a"),
            ("a:\n\na:\n", "crates.txt, line 3: a has a line already"),
            ("# only\na b\n", "crates.txt, line 2: a line is a crate, a colon"),
            ("# none\n", "crates.txt has no crate"),
        ):
            with self.assertRaises(Wrong) as caught:
                crates.block(text)
            self.assertTrue(str(caught.exception).startswith(said), caught.exception)
            self.assertNotIn("\n", str(caught.exception))


class InFiles(unittest.TestCase):
    def setUp(self):
        self.room = tempfile.mkdtemp()
        self.addCleanup(shutil.rmtree, self.room)
        for name in needed.needed(["crates"]):
            os.makedirs(os.path.join(self.room, "tools"), exist_ok=True)
            shutil.copy2(os.path.join(TOOLS, name), os.path.join(self.room, "tools", name))
        self.write("crates.txt", TEXT)
        self.write("page.md", f"# Page\n\n{crates.MAP.first}\n{MAP}\n{crates.MAP.last}\nmore\n")

    def write(self, name, text):
        path = os.path.join(self.room, name)
        os.makedirs(os.path.dirname(path), exist_ok=True)
        with open(path, "w", encoding="utf-8") as file:
            file.write(text)

    def read(self, name):
        with open(os.path.join(self.room, name), encoding="utf-8") as file:
            return file.read()

    def run_it(self, *words):
        ran = subprocess.run([sys.executable, "-B", "tools/crates.py", *words], capture_output=True, text=True, cwd=self.room)
        return ran.returncode, ran.stdout, ran.stderr

    def test_print(self):
        self.assertEqual(self.run_it(), (0, MAP + "\n", ""))
        self.assertEqual(self.run_it("page.md")[0], 2)
        self.assertEqual(self.run_it("--check")[0], 2)

    def test_check_and_write(self):
        page = self.read("page.md")
        self.assertEqual(self.run_it("--check", "page.md"), (0, "", ""))
        self.write("crates.txt", TEXT.replace("tests_low: low", "tests_low: app"))
        said = "page.md:5: not the map of crates.txt, which has: 4  program  tests_low; and here: 3  program  app (tools/crates.py --write page.md)\n"
        self.assertEqual(self.run_it("--check", "page.md"), (1, "", said))
        self.assertEqual(self.run_it("--write", "page.md"), (0, "", ""))
        self.assertEqual(self.run_it("--check", "page.md"), (0, "", ""))
        self.assertEqual(self.read("page.md").split("\n")[4], " 4  program  tests_low")
        self.write("crates.txt", TEXT)
        self.run_it("--write", "page.md")
        self.assertEqual(self.read("page.md"), page)

    def test_block_that_is_cut_or_goes_on(self):
        page = self.read("page.md")
        for text, line in ((page.replace("\nlongest", "\nno\nlongest"), 11), (page.replace(MAP, ""), 4), (page.replace(MAP, MAP + "\nno"), 12)):
            self.write("page.md", text)
            status, _, said = self.run_it("--check", "page.md")
            self.assertEqual((status, said.split(" ")[0], said.count("\n")), (1, f"page.md:{line}:", 1))

    def test_no_place_for_it(self):
        for text in ("", f"{crates.MAP.first}\n", f"{crates.MAP.last}\n{crates.MAP.first}\n"):
            self.write("page.md", text)
            for word in ("--check", "--write"):
                status, _, said = self.run_it(word, "page.md")
                self.assertEqual((status, said.count("\n")), (1, 1))
                self.assertIn("a map stands between", said)
            self.assertEqual(self.read("page.md"), text)

    def test_faults_in_a_line(self):
        self.write("crates.txt", "low: lower\n")
        for words in ((), ("--lines",), ("--check", "page.md")):
            status, out, said = self.run_it(*words)
            self.assertEqual((status, out, said.count("\n")), (1, "", 1))
            self.assertIn("low stands on lower", said)
        self.write("crates.txt", TEXT)
        self.assertEqual(self.run_it("--check", "none.md"), (1, "", "none.md: No such file or directory\n"))

    def test_lines(self):
        self.write("crates/low/src/lib.rt", "a\nb\n")
        self.write("crates/low/src/deep/out/one.rt", "a\n")
        self.write("crates/low/src/one.txt", "a\n")
        self.write("crates/low/specs/Lib.antt", "a\n")
        self.write("crates/app/proofs/out/F/Answers.antt", "a\nb\nc\n")
        self.write("crates/app/out/src/lib.rt", "a\n")
        status, out, _ = self.run_it("--lines")
        self.assertEqual(status, 0)
        rows = [line.split() for line in out.splitlines()]
        self.assertEqual(rows[0], ["crate", "level", "src", "specs", "proofs"])
        self.assertEqual(rows[1:3], [["low", "1", "3", "1", "0"], ["other", "1", "0", "0", "0"]])
        self.assertEqual(rows[4:], [["app", "3", "0", "0", "3"], ["tests_low", "2", "0", "0", "0"], ["all", "3", "1", "3"]])


if __name__ == "__main__":
    unittest.main()
