"""Tests of the package: what is packed, what is refused, and that the pages name the words that the program has."""

import os
import re
import shutil
import subprocess
import sys
import unittest

import needed
from testing import TOOLS, TOP, InARoom, run


def read(*parts):
    with open(os.path.join(TOP, *parts), encoding="utf-8") as file:
        return file.read()


@unittest.skipUnless(shutil.which("dpkg-deb"), "no dpkg-deb is there")
class Packing(InARoom):
    def pack(self, *words):
        return run(os.path.join(TOOLS, "package.sh"), *words, cwd=self.room)

    def test_what_is_packed(self):
        program = self.path("program", b"#!/bin/sh\necho ran: $*\n")
        status, out, said = self.pack("--program", program)
        self.assertEqual((status, said), (0, ""))
        version = read("VERSION").strip() + "+unproved"
        self.assertTrue(out.startswith(f"./pulse-rw_{version}_"), out)
        root = self.path("root")
        subprocess.run(["dpkg-deb", "-x", os.path.join(self.room, out.strip()), root], check=True)
        self.assertEqual(run("sh", f"{root}/usr/bin/pulse_rw", "--version"), (0, f"pulse_rw {version}\n", ""))
        self.assertEqual(run(f"{root}/usr/lib/pulse_rw/pulse_rw", "a", "b"), (0, "ran: a b\n", ""))
        for name in ("bin/pulse_rw-px", "lib/systemd/user/pulse_rw.service", "share/man/man1/pulse_rw.1.gz", "share/bash-completion/completions/pulse_rw",
                     "share/pulse_rw/help.txt", "share/doc/pulse-rw/README.md", "share/doc/pulse-rw/docs/SERVING.md", "share/doc/pulse-rw/examples/auth.prs"):
            self.assertTrue(os.path.exists(f"{root}/usr/{name}"), name)
        self.assertEqual(sorted(os.listdir(f"{root}/usr/share/pulse_rw/tools")), needed.needed(["session", "output", "header", "px"]))
        status, out, said = run(sys.executable, f"{root}/usr/bin/pulse_rw-px", "session", "show", os.path.join(TOP, "examples", "auth.prs"))
        self.assertEqual((status, said), (0, ""))
        self.assertIn("auth 1", out)
        status, _, said = run(sys.executable, f"{root}/usr/bin/pulse_rw-px", "package")
        self.assertEqual((status, said.split(",")[0]), (1, "px package: this wants the repository"))
        for name in os.listdir(f"{root}/usr/share/pulse_rw/tools"):
            self.assertFalse(name.startswith("test") or name == "__pycache__", name)

    def test_the_program_that_was_built(self):
        copy = self.path("copy")
        for part in ("tools", "package", "man", "docs", "examples"):
            shutil.copytree(os.path.join(TOP, part), os.path.join(copy, part))
        for name in ("VERSION", "README.md"):
            shutil.copy2(os.path.join(TOP, name), copy)
        os.makedirs(os.path.join(copy, "crates/pulse_rw/out"))
        for name, text in (("crates.txt", "pulse_rw:\n"), ("crates/pulse_rw/out/pulse_rw", "#!/bin/sh\n")):
            with open(os.path.join(copy, name), "w", encoding="utf-8") as file:
                file.write(text)
        os.chmod(os.path.join(copy, "crates/pulse_rw/out/pulse_rw"), 0o755)
        pack = os.path.join(copy, "tools/package.sh")
        status, out, said = run(pack, "--to", self.room)
        self.assertEqual((status, out), (1, ""))
        self.assertIn("out/pulse_rw isn't there, or isn't built from these sources: run ./pulse_rw once", said)
        total = run(os.path.join(copy, "tools/sources.sh"))[1].strip()
        self.assertEqual(run(os.path.join(copy, "tools/built.sh"), "note", total)[0], 0)
        status, out, said = run(pack, "--to", self.room)
        self.assertEqual((status, said), (0, ""))
        version = read("VERSION").strip()
        self.assertEqual(os.path.basename(out).split("_")[:2], ["pulse-rw", version])
        self.assertEqual(run("dpkg-deb", "-f", out.strip(), "Version"), (0, version + "\n", ""))
        self.assertIn("each of its functions is proved", run("dpkg-deb", "-f", out.strip(), "Description")[1])

    def test_what_is_refused(self):
        self.assertEqual(self.pack("--program", "gone"), (1, "", "package.sh: gone: there is no such file\n"))
        self.assertEqual(self.pack("--program", self.path("it", b""), "--to", "gone"), (1, "", "package.sh: gone: there is no such folder\n"))
        for words in (["--other"], ["--program"]):
            status, out, said = self.pack(*words)
            self.assertEqual((status, out, said[:20]), (2, "", "Makes a Debian packa"))
        self.assertEqual(self.pack("--help")[::2], (0, ""))

    def test_modules_that_tools_want(self):
        self.assertEqual(needed.needed(["words"]), ["words.py"])
        self.assertEqual(needed.needed(["wire"]), ["wire.py", "words.py"])
        self.assertEqual(run(sys.executable, "-B", os.path.join(TOOLS, "needed.py"), "gone"), (1, "", "tools/gone: there is no such tool\n"))


class Pages(unittest.TestCase):
    def test_the_words_of_the_program(self):
        usage = re.search(r'"pulse_rw: usage: (.*)\\n"', read("crates", "px_app", "specs", "Ending.antt"))[1]
        words = re.findall(r"--[a-z]+|\b[a-z]+\b", usage)
        self.assertEqual(words[:3], ["replay", "--raw", "--monitor"])
        options = ["--" + word for word in re.findall(r'(?:path_rule|option_rule|new_rule) \(codes "([a-z]+)"\)', read("crates", "px_app", "specs", "ServeCommand.antt"))]
        self.assertIn("--accept", options)
        errands = re.findall(r'bytes_eq (?:word|first) \(codes "([a-z-]+)"\)', read("crates", "px_ctl", "specs", "Words.antt"))
        self.assertIn("sink-volume", errands)
        for page in ("package/help.txt", "man/pulse_rw.1", "package/completion.bash"):
            text = read(page).replace("\\-", "-")
            for word in words + options + errands + ["--help", "--version"]:
                self.assertRegex(text, rf"(?<![\w-]){word}\b", f"{page} has no {word}")

    def test_the_statuses(self):
        codes = set(re.findall(r"Status::\w+ => (\d+)", read("crates", "px_types", "src", "status.rt")))
        self.assertTrue(codes >= {"0", "9"}, codes)
        page = read("man", "pulse_rw.1")
        page = page[page.index(".SH EXIT STATUS") : page.index(".SH FILES")]
        self.assertEqual({code for code in codes if re.search(rf"^\.BR? .*\b{code}\b", page, re.M)}, codes)
        for code in codes - {"0"}:
            self.assertRegex(read("package", "help.txt"), rf"\b{code}\b")


if __name__ == "__main__":
    unittest.main()
