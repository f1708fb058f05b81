"""Tests of the launcher, with a command rt of their own that "proves" a crate unless it has the word wrong in a file."""

import os
import shutil
import stat
import subprocess
import tempfile
import unittest

TOP = os.path.dirname(os.path.dirname(os.path.abspath(__file__)))
RT = """#!/bin/sh
echo "$1 $(basename "$PWD")" >>"$RT_LOG"
if grep -rq wrong src specs 2>/dev/null; then echo "error: no proof of $(basename "$PWD")"; exit 1; fi
if [ "$1" = run ]; then
    mkdir -p out
    { echo '#!/bin/sh'; echo "echo program of $(cat src/main.rt), with $(cat ../px_low/src/lib.rt): \\"\\$@\\""; } >out/pulse_rw
    chmod +x out/pulse_rw
fi
"""


class Launching(unittest.TestCase):
    def setUp(self):
        self.room = tempfile.mkdtemp()
        self.addCleanup(shutil.rmtree, self.room)
        self.top = os.path.join(self.room, "a copy")
        for part in ("tools", "package", "bin", "examples", "crates/px_low/src", "crates/px_low/specs", "crates/pulse_rw/src", "crates/px_other/src"):
            os.makedirs(os.path.join(self.top, part))
        for name in ("pulse_rw", "VERSION", "package/help.txt", "tools/sources.sh", "tools/built.sh"):
            shutil.copy2(os.path.join(TOP, name), os.path.join(self.top, name))
        self.write("bin/rt", RT)
        os.chmod(os.path.join(self.top, "bin/rt"), 0o755)
        self.write("examples/auth.prs", "")
        self.write("crates.txt", "# all\npx_low:\npx_other:\npulse_rw: px_low\n")
        self.write("crates/px_low/src/lib.rt", "low")
        self.write("crates/px_low/specs/Low.antt", "word")
        self.write("crates/px_other/src/lib.rt", "other")
        self.write("crates/pulse_rw/src/main.rt", "one")

    def write(self, name, text):
        with open(os.path.join(self.top, name), "w", encoding="utf-8") as file:
            file.write(text)

    def run_it(self, *words, by="pulse_rw", **env):
        """The status, what was written, what was said, and which commands rt was given."""
        log = os.path.join(self.room, "log")
        open(log, "w").close()
        env = {**os.environ, "PATH": f"{self.top}/bin:{os.environ['PATH']}", "RT_LOG": log, **env}
        ran = subprocess.run([os.path.join(self.top, by), *words], capture_output=True, text=True, env=env, cwd="/")
        with open(log, encoding="utf-8") as file:
            return ran.returncode, ran.stdout, ran.stderr, file.read().split("\n")[:-1]

    def test_it_proves_once_and_then_runs(self):
        status, out, said, asked = self.run_it("replay", "two words")
        self.assertEqual((status, out), (0, "program of one, with low: replay two words\n"))
        self.assertEqual(asked, ["lib px_low", "run pulse_rw"])
        self.assertIn("about half an hour", said)
        self.assertIn("crate 1 of 2, px_low", said)
        self.assertIn("crate 2 of 2, pulse_rw", said)
        self.assertEqual(self.run_it("replay"), (0, "program of one, with low: replay\n", "", []))

    def test_sources_are_told_by_content(self):
        self.run_it()
        for name in ("crates.txt", "crates/px_low/src/lib.rt", "crates/px_low/specs/Low.antt", "crates/pulse_rw/src/main.rt"):
            os.utime(os.path.join(self.top, name), (4_000_000_000, 4_000_000_000))
        self.assertEqual(self.run_it()[3], [])
        for name, text in (("crates.txt", "px_low:\npulse_rw: px_low\n"), ("crates/px_low/specs/Low.antt", "other"), ("crates/px_low/src/lib.rt", "new")):
            self.write(name, text)
            self.assertEqual(self.run_it()[3], ["lib px_low", "run pulse_rw"])
            self.assertEqual(self.run_it()[3], [])

    def test_nothing_old_runs_behind_a_failed_proof(self):
        self.run_it()
        for name in ("crates/px_low/specs/Low.antt", "crates/pulse_rw/src/main.rt"):
            with open(os.path.join(self.top, name), encoding="utf-8") as file:
                before = file.read()
            self.write(name, "wrong")
            for _ in range(2):
                status, out, said, _ = self.run_it("replay")
                self.assertEqual((status, out), (70, ""))
                self.assertIn("error: no proof of", said)
                self.assertIn("isn't proved, so nothing is run", said)
            self.write(name, before)
            self.assertEqual(self.run_it()[1::2], ("program of one, with low:\n", []))

    def test_another_program_in_its_place_is_not_run(self):
        self.run_it()
        self.write("crates/pulse_rw/out/pulse_rw", "#!/bin/sh\necho another\n")
        self.assertEqual(self.run_it()[1::2], ("program of one, with low:\n", ["lib px_low", "run pulse_rw"]))

    def test_a_symlink_to_it_works(self):
        os.symlink(os.path.join(self.top, "pulse_rw"), os.path.join(self.top, "bin", "play"))
        self.assertEqual(self.run_it("replay", by="bin/play")[:2], (0, "program of one, with low: replay\n"))

    def test_a_tape_is_its_owners_alone(self):
        self.run_it()
        for words, mode in ((("serve", "--tape", "--accept", "1"), 0o600), (("convert",), 0o600), (("replay",), 0o644), (("serve", "--accept", "1"), 0o644)):
            path = os.path.join(self.room, "tape")
            with open(path, "wb") as tape:
                os.chmod(path, 0o644)
                env = {**os.environ, "PATH": f"{self.top}/bin:{os.environ['PATH']}"}
                ran = subprocess.run([os.path.join(self.top, "pulse_rw"), *words], stdout=tape, stderr=subprocess.PIPE, env=env)
            self.assertEqual((ran.returncode, ran.stderr, stat.S_IMODE(os.stat(path).st_mode)), (0, b"", mode), words)

    def test_it_says_where_the_program_is(self):
        program = os.path.join(self.top, "crates/pulse_rw/out/pulse_rw")
        self.assertEqual(self.run_it(PULSE_RW_PATH="1")[:2], (0, program + "\n"))

    def test_help_and_version_want_no_program(self):
        with open(os.path.join(TOP, "VERSION"), encoding="utf-8") as file:
            self.assertEqual(self.run_it("--version"), (0, f"pulse_rw {file.read()}", "", []))
        status, out, said, asked = self.run_it("--help")
        self.assertEqual((status, out[:22], said, asked), (0, "usage: pulse_rw WORD .", "", []))

    def test_it_says_that_rt_is_not_there(self):
        os.remove(os.path.join(self.top, "bin/rt"))
        status, out, said, _ = self.run_it(PATH="/usr/bin:/bin")
        self.assertEqual((status, out), (70, ""))
        self.assertIn("the command rt of the Rattle kit isn't there", said)
