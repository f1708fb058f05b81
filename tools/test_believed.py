"""Tests of what must be believed, over a small repository of two crates, whose definitions are counted here by hand."""

import os
import shutil
import subprocess
import sys
import tempfile
import unittest

import believed
from definitions import read_definitions, told, tokens_of
from words import Wrong

TOOLS = os.path.dirname(os.path.abspath(__file__))
LOW_SPEC = """-- Shapes.
use Rattle.std.specs.Prelude.{ℕ, ◌+◌, List, [], ◌∷◌}
use Rattle.px_low.specs.declared.size.Size.{Size}
use Rattle.px_low.specs.declared.size.Size.TheVariants as size
use Rattle.px_low.specs.declared.size.TheConstants.{MOST}
use Rattle.px_low.specs.Deep.{deep as low_deep}

pub data Shape : Type 0 where
  -- of a length
  bar : ℕ → Shape
  dot : Shape

-- how long it is
abbrev pub length_of : Shape → ℕ
length_of (bar n) = low_deep n
length_of dot = 0

abbrev pub size_of : Size → ℕ
size_of size.Small = 0
size_of (size.Large n) = n + MOST

-- nobody asks for it
abbrev pub unused : ℕ
unused = length_of dot

module _ {T : Type 0} (sizes : List Size) where
  -- its name is that of a function
  abbrev pub shadowing : Size → ℕ
  shadowing deep_sum = let length_of : ℕ = 0 in
    size_of deep_sum + length_of
"""
DEEP = """-- Deep.
use Rattle.std.specs.Prelude.{ℕ}
pub use Rattle.px_low.specs.Deeper.{deeper}

abbrev pub deep : ℕ → ℕ
deep n = n
"""
DEEPER = """-- Deeper.
use Rattle.std.specs.Prelude.{ℕ}

abbrev pub deeper : ℕ
deeper = 1
"""
SIZE = """//! Sizes.
use crate::text::Name;

/// The most.
pub const MOST: u32 = 7;

/// A size.
#[derive(Drop)]
pub enum Size {
    /// It is small.
    Small,
    Large(u32),
    Named { name: Name },
}

enum Other {
    One,
}
"""
TEXT = """use std::marker::Model;

pub struct Name {
    bytes: Vec<u8>,
}

impl Model for Name {
    ghost use Rattle.px_low.specs.Shape.{length_of};

    ghost view = { λ n. length_of n };
}
"""
ENDS = """ghost use Rattle.px_low.specs.Deep.{deep, deeper};

pub trait Source {
    ghost left: { Self → ℕ };

    fn read(&mut self) -> Got
        ensures { left self.new ≡ deeper };
}

pub enum Got {
    Bytes(usize),
}
"""
REPLAYING = """use px_low::Source;

ghost use Rattle.px_low.specs.Shape.{shadowing};

/// Replays.
pub fn replay<S: Source>(input: &mut S) -> bool
    ensures { shadowing (S.left input.old) }
{
    let unused = 1;
    true
}
"""
PROGRAM = """ghost use Rattle.px_low.specs.Shape.{length_of};

pub fn run(words: &[String]) -> bool
    ensures { length_of }
{
    true
}
"""
FILES = {
    "crates.txt": "px_low:\npx_app: px_low\n",
    "crates/px_low/specs/Shape.antt": LOW_SPEC,
    "crates/px_low/specs/Deep.antt": DEEP,
    "crates/px_low/specs/Deeper.antt": DEEPER,
    "crates/px_low/src/lib.rt": "mod ends;\nmod size;\npub use ends::{Got, Source};\npub use size::{Size, MOST};\n",
    "crates/px_low/src/size.rt": SIZE,
    "crates/px_low/src/text.rt": TEXT,
    "crates/px_low/src/ends.rt": ENDS,
    "crates/px_app/src/lib.rt": "mod replaying;\n",
    "crates/px_app/src/replaying.rt": REPLAYING,
    "crates/px_app/src/program.rt": PROGRAM,
}


class Believing(unittest.TestCase):
    def setUp(self):
        self.top = tempfile.mkdtemp()
        self.addCleanup(shutil.rmtree, self.top)
        for name, text in FILES.items():
            self.write(name, text)

    def write(self, name, text):
        path = os.path.join(self.top, name)
        os.makedirs(os.path.dirname(path), exist_ok=True)
        with open(path, "w", encoding="utf-8") as file:
            file.write(text)

    def names(self, start):
        sources = believed.Sources(self.top)
        found, kit = believed.closure(sources, *believed.STARTS[start])
        return sorted(f"{module.split('.', 1)[1]}.{name}" for module, name in found), sorted(name.rsplit(".", 1)[1] for name in kit)

    def test_the_names_are_followed_to_the_bottom(self):
        wanted = ["specs.Deep.deep", "specs.Deeper.deeper", "specs.Shape.Shape", "specs.Shape.length_of", "specs.Shape.shadowing", "specs.Shape.size_of"]
        code = ["src.ends.Got", "src.ends.Source", "src.size.MOST", "src.size.Size", "src.text.Name"]
        self.assertEqual(self.names("replay"), (wanted + code, ["List", "ℕ", "◌+◌"]))
        self.assertEqual(self.names("run"), (["specs.Deep.deep", "specs.Shape.Shape", "specs.Shape.length_of"], ["ℕ"]))

    def test_a_variable_is_not_the_function_of_its_name(self):
        text = "use Rattle.std.specs.Prelude.{ℕ}\nabbrev pub one : ℕ\none = 1\nabbrev pub two : ℕ → ℕ\ntwo one = one\n"
        self.write("crates/px_low/specs/Shape.antt", text)
        self.write("crates/px_app/src/program.rt", PROGRAM.replace("length_of", "two"))
        self.assertEqual(self.names("run")[0], ["specs.Shape.two"])

    def test_lines_are_counted_without_comments(self):
        head = "        replay: definitions  lines     run: definitions  lines"
        self.assertEqual(believed.plain(self.top), [head, "px_low                   11     36                    3      8", "all                      11     36                    3      8"])
        self.assertEqual(believed.listed(self.top, "run", False), ["crates/px_low/specs/Deep.antt  2", "crates/px_low/specs/Shape.antt  6"])
        self.assertEqual(believed.listed(self.top, "run", True)[2:], ["crates/px_low/specs/Shape.antt  6", "    Shape  3", "    length_of  3"])

    def test_the_table_of_a_file(self):
        wanted = believed.table(self.top)
        said = f"# It\n\n{believed.TABLE.first}\nold\n{believed.TABLE.last}\n\nmore\n"
        changed = believed.TABLE.written(wanted, said, "It.md")
        self.assertEqual(changed, "\n".join(["# It", "", believed.TABLE.first, *wanted, believed.TABLE.last, "", "more", ""]))
        believed.TABLE.check(wanted, changed, "It.md")
        with self.assertRaisesRegex(Wrong, r"It.md:6: the definitions give: \| px_low \| 11 \| 36 .*; and here: \| px_low \| 12 \| 36"):
            believed.TABLE.check(wanted, changed.replace("| 11 |", "| 12 |", 1), "It.md")
        with self.assertRaisesRegex(Wrong, "It.md: a table stands between one line"):
            believed.TABLE.check(wanted, "# It\n", "It.md")

    def test_what_is_not_there(self):
        self.write("crates/px_low/specs/Deep.antt", DEEP.replace("deep", "other"))
        with self.assertRaisesRegex(Wrong, "crates/px_low/specs/Deep.antt: deep is imported from here, and isn't declared"):
            self.names("run")
        self.write("crates/px_app/src/program.rt", "")
        with self.assertRaisesRegex(Wrong, "crates/px_app/src/program.rt: there is no function run"):
            self.names("run")
        with self.assertRaisesRegex(Wrong, "Odd.antt:2: this line belongs to no definition: one = 1"):
            read_definitions("Odd.antt", "-- odd\none = 1\n")

    def test_the_command(self):
        ran = subprocess.run([sys.executable, "-B", os.path.join(TOOLS, "believed.py"), "--files", "other"], capture_output=True, text=True)
        self.assertEqual((ran.returncode, ran.stdout, ran.stderr[:26]), (2, "", "What must be believed: the"))

    def test_of_these_sources_no_import_is_missed(self):
        sources = believed.Sources(os.path.dirname(TOOLS))
        for crate in sources.crates:
            folder = os.path.join(sources.at, crate, "specs")
            for name in sorted(os.listdir(folder)) if os.path.isdir(folder) else []:
                if name.endswith(".antt") and name != "Lib.antt":
                    self.assertEqual((f"{crate}/{name}", self.idle(sources, f"{crate}.specs.{name[:-5]}")), (f"{crate}/{name}", []))

    def idle(self, sources, module):
        """The imports that a module's definitions have as words, and that none of them is seen to use; those of more than one part are the kit's own."""
        there = sources.module(module)
        used = {parts[0] for definition in there.found.values() for parts in believed.words_of(sources, module, definition)}
        words = {parts[0] for definition in there.found.values() for line in told(definition.lines) for parts in tokens_of(line)}
        names = [name for name in [*there.imports, *there.short] if name in words and "◌" not in name]
        return [name for name in names if name not in used]


if __name__ == "__main__":
    unittest.main()
