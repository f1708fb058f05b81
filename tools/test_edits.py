"""Tests of the trying of edits, with a command rt of their own that says of each edit what the edit's first line has."""

import os
import shutil
import subprocess
import tempfile
import unittest

from edits import verdict

TOOLS = os.path.dirname(os.path.abspath(__file__))
RT = """#!/bin/bash
[ "$1" = must-fail ] || exit 2
shift
echo "$* at $PWD" >>"$RT_LOG"
echo "fn px_low::one: proved"
for crate in ${*:-$(ls crates)}; do
    for edit in crates/$crate/must-fail/*.edit; do
        said=$(head -1 "$edit")
        [ "${said#said: }" = nothing ] || echo "rt: must-fail $crate/$(basename "$edit"): ${said#said: }"
    done
done
exit 1
"""
REFUSED = "refused, as it must be: note: src/lib.rt:24:5: it is not proved that what the function ensures holds when it returns (`returns-then-eq`); the facts"


def edit(said, old="one", new="two", file="src/lib.rt"):
    return f"said: {said}\nfile: {file}\nold: {old}\nnew: {new}\n"


class Verdicts(unittest.TestCase):
    def test_words(self):
        for said, told in (
            (REFUSED, "refused by returns-then-eq at src/lib.rt:24"),
            ("refused, as it must be: ./src/a.rt:1:2: error: no", "refused by ./src/a.rt:1:2: error: no"),
            ("refused, as it must be", "refused by the prover"),
            ("refused, as it must be (only by a limit of the prover, which gave no verdict): x", "refused by a limit of the prover alone"),
            ("refused, as it must be (only because a proof file names it): x", "refused by a proof file alone, which names what it takes away"),
            ("NOT REFUSED: the crate is still proved with this edit", "NOT REFUSED"),
            ("BAD EDIT: it changes nothing", "BAD EDIT: it changes nothing"),
            ("NOT TRIED: its check was killed", "NOT TRIED: its check was killed"),
        ):
            self.assertEqual(verdict(said), told)


class Trying(unittest.TestCase):
    def setUp(self):
        self.room = tempfile.mkdtemp()
        self.addCleanup(shutil.rmtree, self.room)
        self.top = os.path.join(self.room, "a copy")
        self.log = os.path.join(self.room, "log")
        for name in ("edits.sh", "edits.py", "command.py", "words.py"):
            os.makedirs(os.path.join(self.top, "tools"), exist_ok=True)
            shutil.copy2(os.path.join(TOOLS, name), os.path.join(self.top, "tools", name))
        os.makedirs(os.path.join(self.room, "bin"))
        os.makedirs(os.path.join(self.room, "tmp"))
        with open(os.path.join(self.room, "bin/rt"), "w", encoding="utf-8") as file:
            file.write(RT)
        os.chmod(os.path.join(self.room, "bin/rt"), 0o755)
        for crate in ("px_low", "px_high"):
            self.write(f"crates/{crate}/src/lib.rt", "one, and more\n")
        self.write("crates/px_low/must-fail/first.edit", edit(REFUSED))
        self.write("crates/px_low/edits/second.edit", edit(REFUSED))
        self.write("crates/px_high/edits/third.edit", edit(REFUSED))
        self.git("init", "-q")
        self.commit()

    def git(self, *words):
        subprocess.run(["git", "-c", "user.name=a", "-c", "user.email=a@b", *words], cwd=self.top, check=True, capture_output=True)

    def commit(self):
        self.git("add", "-A")
        self.git("commit", "-qm", "all")

    def write(self, name, text):
        path = os.path.join(self.top, name)
        os.makedirs(os.path.dirname(path), exist_ok=True)
        with open(path, "w", encoding="utf-8") as file:
            file.write(text)

    def run_it(self, *words):
        env = {**os.environ, "PATH": f"{self.room}/bin:{os.environ['PATH']}", "RT_LOG": self.log, "TMPDIR": f"{self.room}/tmp"}
        ran = subprocess.run([os.path.join(self.top, "tools/edits.sh"), *words], capture_output=True, text=True, env=env, cwd="/")
        self.assertEqual(os.listdir(f"{self.room}/tmp"), [])
        return ran.returncode, ran.stdout.splitlines(), ran.stderr

    def test_both_folders_are_tried(self):
        came = "refused by returns-then-eq at src/lib.rt:24"
        low = [f"px_low first {came}", f"px_low second {came}"]
        self.assertEqual(self.run_it(), (0, [f"px_high third {came}", *low], ""))
        self.assertEqual(self.run_it("px_low"), (0, low, ""))
        with open(self.log, encoding="utf-8") as file:
            self.assertNotIn(f" at {self.top}", file.read())
        self.assertEqual(os.listdir(f"{self.top}/crates/px_low/must-fail"), ["first.edit"])

    def test_what_is_not_refused(self):
        for said, told in (("NOT REFUSED: still proved", "NOT REFUSED"), ("BAD EDIT: why", "BAD EDIT: why"), ("nothing", "NOT TRIED")):
            self.write("crates/px_high/edits/third.edit", edit(said))
            self.commit()
            status, lines, complained = self.run_it("px_high")
            self.assertEqual((status, lines), (1, [f"px_high third {told}"]))
            self.assertEqual("fn px_low::one: proved" in complained, said == "nothing")

    def test_changes_that_are_not_committed(self):
        self.write("crates/px_low/src/lib.rt", "one, and less\n")
        status, lines, said = self.run_it()
        self.assertEqual((status, lines), (1, []))
        self.assertIn("crates/px_low/src/lib.rt", said)

    def test_a_crate_that_is_not_there(self):
        for words in (("px_lower",), ("--look", "px_lower")):
            self.assertEqual(self.run_it(*words), (1, [], "px_lower: no crate has this name\n"))
        self.assertFalse(os.path.exists(self.log))

    def test_look(self):
        self.assertEqual(self.run_it("--look"), (0, [], ""))
        two = "file: src/lib.rt\nold: one\nnew: two\nold: two\nnew: one one\n"
        for name, text, fault in (
            ("third.edit", edit("", old="on"), "its old text stands 2 times in src/lib.rt, and not once: on"),
            ("third.edit", edit("", old="four"), "its old text stands 0 times in src/lib.rt, and not once: four"),
            ("third.edit", edit("", file="src/other.rt"), "there is no file src/other.rt"),
            ("third.edit", edit("", file="src/../../px_low/src/lib.rt"), "there is no file src/../../px_low/src/lib.rt"),
            ("third.edit", two + "old: one\nnew: two\n", "its old text stands 2 times in src/lib.rt, and not once: one"),
            ("third.edit", "", "it has no old and new text"),
            ("third.edit", "file: src/lib.rt\nold: one\n", "an old text has no new one"),
            ("third.edit", "file: src/lib.rt\nnew: one\n", "a new text stands before its old one"),
            ("third.edit", "old: one\nnew: two\n", "its old text stands before a file"),
            ("third.txt", "", "the name of an edit ends in .edit"),
        ):
            self.write("crates/px_high/src/lib.rt", "one, and only\n")
            self.write(f"crates/px_high/edits/{name}", text)
            self.assertEqual(self.run_it("--look"), (1, [f"crates/px_high/edits/{name}: {fault}"], ""))
            self.assertEqual(self.run_it("--look", "px_low"), (0, [], ""))
            self.assertEqual(self.run_it()[0], 1)
            os.remove(f"{self.top}/crates/px_high/edits/{name}")
        self.write("crates/px_high/edits/third.edit", two)
        self.assertEqual(self.run_it("--look"), (0, [], ""))

    def test_one_name_in_both_folders(self):
        self.write("crates/px_low/edits/first.edit", edit(REFUSED))
        self.assertEqual(self.run_it("--look"), (1, ["crates/px_low/edits/first.edit: an edit of the other folder has its name"], ""))


if __name__ == "__main__":
    unittest.main()
