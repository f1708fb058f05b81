"""Tests of the checks of the documents, over a small repository and small documents with the faults that they must have."""

import os
import shutil
import subprocess
import sys
import tempfile
import unittest

import docs

TOOLS = os.path.dirname(os.path.abspath(__file__))
FILES = {
    "crates.txt": "px_low:\npx_top: px_low indexmap\ntests_low: px_low\n",
    "README.md": "# A head, of it\n",
    "docs/SERVING.md": "# Serving\n\n## Two words: here\n",
    "tools/header.py": "def sinks_named(it): pass\n",
    "conformance/live/rows.py": "",
    "crates/px_low/src/lib.rt": "pub use low::Low;\n",
    "crates/px_low/src/low.rt": "pub struct Low;\nimpl Low {\n    pub fn feed(&self) {}\n}\n",
    "crates/px_low/specs/Low.antt": "abbrev pub IsLow : Type 0\n",
    "crates/px_top/src/lib.rt": "mod make;\n",
    "crates/px_top/src/make.rt": "pub fn make_it() {}\n",
    "crates/px_top/specs/Top.antt": "",
}


class Documents(unittest.TestCase):
    def setUp(self):
        self.top = tempfile.mkdtemp()
        self.addCleanup(shutil.rmtree, self.top)
        for name, text in FILES.items():
            path = os.path.join(self.top, name)
            os.makedirs(os.path.dirname(path), exist_ok=True)
            with open(path, "w", encoding="utf-8") as file:
                file.write(text)
        self.sources = docs.Sources(self.top)

    def faults(self, text, path="docs/OTHER.md"):
        return [f"{number}: {cause}" for number, _, cause in docs.faults_of(self.sources, path, text)]

    def test_long_lines(self):
        long = "x" * 161
        self.assertEqual(self.faults(f"{'x' * 160}\n{long}\n| {long} |\n\n    {long}\n\n```\n{long}\n```\n"), ["2: 161 characters, and 160 are the most"])
        self.assertEqual(self.faults(f"a\n    {long}\n"), ["2: 165 characters, and 160 are the most"])

    def test_sizes(self):
        line = "x" * 127 + "\n"  # 128 bytes, so 64 of them are 8,192
        self.assertEqual(self.faults(line * 64, "HACKING.md"), [])
        over = "65: HACKING.md has 8,193 bytes, and 8,192 are the most: what is longer goes to docs/history/"
        self.assertEqual(self.faults(line * 64 + "x", "HACKING.md"), [over])
        self.assertEqual(self.faults(line * 63 + "\u00e4" * 64 + "\n", "HACKING.md"), [over.replace("65", "64")])
        self.assertEqual(self.faults(line * 1_000, "docs/SERVING.md"), [])
        # each document that has a size is there, and the rooms that its readers were promised are not widened unseen
        self.assertEqual([name for name in docs.SIZES if not os.path.exists(os.path.join(docs.TOP, name))], [])
        promised = {"README": 5_000, "HACKING": 8_192, "docs/ARCHITECTURE": 12_000, "docs/BELIEVE": 10_240, "docs/BENCHMARKS": 6_144, "docs/DECISIONS": 40_000, "docs/PROVED": 30_720}
        self.assertEqual(docs.SIZES, {f"{name}.md": most for name, most in promised.items()})

    def test_numbers(self):
        self.assertEqual(self.faults("- **1** One.\n- **3** Three, **1** and **1**.\n\n## More\n- **2** Two.\n- **1** Again.\n"), ["6: 1 is the number of line 1 too"])

    def test_crates(self):
        self.assertEqual(self.faults("`px_low`, `tests_low` and\n`px_lo`, px_lo too\n\n    `px_lo`\n"), ["2: there is no crate px_lo"])

    def test_files(self):
        there = "`px_low/src/low.rt` `src/make.rt` `make.rt` `Low.antt` `docs/SERVING.md` `header.py` docs/SERVING.md, `tools/header.py`, conformance/live. `crates/NAME/src`"
        self.assertEqual(self.faults(there), [])
        gone = "`px_low/src/make.rt`\n`src/gone.rt`\n`Gone.antt`\ndocs/GONE.md.\n\n    tools/gone.py a | tools/header.py\n"
        wanted = ["1: there is no file px_low/src/make.rt", "2: there is no file src/gone.rt", "3: there is no file Gone.antt"]
        self.assertEqual(self.faults(gone), wanted + ["4: there is no file docs/GONE.md", "6: there is no file tools/gone.py"])
        self.assertEqual(self.faults("`proofs/MODULE/FUNCTION/Answers.antt` and docs/*.md, `dice_N`, `protocol-native.c`"), [])

    def test_functions(self):
        self.assertEqual(self.faults("`px_low::Low` `px_low::feed` `px_top::make_it` `Low::feed` `make.rt: make_it` `indexmap::new` `pa_sink_render`"), [])
        wanted = ["1: px_low has no make_it", "2: no crate has Low::make_it", "3: no crate has High::feed", "4: low.rt has no make_it"]
        self.assertEqual(self.faults("`px_low::make_it`\n`Low::make_it`\n`High::feed`\n`low.rt: make_it`\n"), wanted)

    def test_other_names(self):
        self.assertEqual(self.faults("`make_it`, `IsLow`, `sinks_named(it)`, `anything`, `Anything`, `--two_words`"), [])
        self.assertEqual(self.faults("`make_that` and `IsHigh`"), ["1: make_that stands nowhere in the sources", "1: IsHigh stands nowhere in the sources"])

    def test_a_file_of_a_crate_beside_it(self):
        near = docs.paragraphs(["- `px_low`", "  more", "- `px_top`", "| px_top |", "| px_low |", "", "px_low"], ["text"] * 3 + ["table"] * 2 + ["blank", "text"])
        self.assertEqual(near, [{"px_low"}, {"px_low"}, {"px_top"}, {"px_top"}, {"px_low"}, {"px_low"}, {"px_low"}])
        self.assertEqual(self.sources.files_of("src/lib.rt", {"px_top"}), ["crates/px_top/src/lib.rt"])
        self.assertEqual(len(self.sources.files_of("src/lib.rt", set())), 2)
        self.assertEqual(self.faults("# px_top\n\n`lib.rt: Low`\n"), ["3: lib.rt has no Low"])

    def test_links(self):
        self.assertEqual(self.faults("[a](SERVING.md) [b](SERVING.md#two-words-here) [c](../README.md#a-head-of-it) [d](https://x.org/y) `[e](gone)`"), [])
        self.assertEqual(self.faults("[a](GONE.md)\n![b](SERVING.md#three)\n"), ["1: the link GONE.md leads to nothing", "2: docs/SERVING.md has no heading for the link SERVING.md#three"])

    def test_which_documents(self):
        self.assertEqual(docs.documents(self.sources), ["README.md", "docs/SERVING.md"])

    def test_the_command(self):
        ran = subprocess.run([sys.executable, "-B", os.path.join(TOOLS, "docs.py"), "--other"], capture_output=True, text=True)
        self.assertEqual((ran.returncode, ran.stdout, ran.stderr[:29]), (2, "", "The documents, held against t"))


if __name__ == "__main__":
    unittest.main()
