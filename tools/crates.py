#!/usr/bin/env python3
"""The map of the crates, drawn from crates.txt: which stand on which, level by level.

  tools/crates.py                   prints the map as a block of Markdown
  tools/crates.py --check FILE      tells in a line where the block of a file differs from it
  tools/crates.py --write FILE      puts it into a file, between the lines that mark its place
  tools/crates.py --lines           prints the lines of Rattle code and of antt of each crate

A crate of level 1 stands on no crate of the repository, any other stands a level above the highest that it stands on."""

import os
import sys

from command import asked, ended, read
from marked import Marked
from words import Wrong

TOP = os.path.dirname(os.path.dirname(os.path.abspath(__file__)))
MAP = Marked("a map", "<!-- map: tools/crates.py -->", "<!-- end of map -->", "not the map of crates.txt, which has", "tools/crates.py")
WIDTH = 150

# the libraries of the kit that crates stand on
KIT = frozenset(("atomic_table", "circular_buffer", "clap", "crossbeam_queue", "indexmap", "slab", "thiserror"))


class Crate:
    """A line of crates.txt: a crate, the layer that it stands in, and the crates of the repository that it stands on."""

    def __init__(self, name, layer, below):
        self.name, self.layer, self.below, self.level = name, layer, below, 0


def line_of(line, number, layer):
    """The crate of a line."""
    name, colon, below = line.partition(":")
    words = name.split()
    if not colon or not words:
        raise Wrong(f"crates.txt, line {number}: a line is a crate, a colon and the crates that it stands on: {line.strip()}")
    return Crate(words[0], layer, below.split())


def crates_of(text):
    """The crates of a text, by name and in its order, each with its level."""
    crates, layer = {}, ""
    for number, line in enumerate(text.split("\n"), 1):
        if line.startswith("# ") and len(line.split()) == 2:
            layer = line[2:].strip()
        line = line.partition("#")[0]
        if line.strip():
            crate = line_of(line, number, layer)
            if crate.name in crates:
                raise Wrong(f"crates.txt, line {number}: {crate.name} has a line already")
            crates[crate.name] = crate
    for crate in crates.values():
        unknown = [name for name in crate.below if name not in crates and name not in KIT]
        if unknown:
            raise Wrong(f"crates.txt: {crate.name} stands on {unknown[0]}, which is no crate here, and no library of the kit that tools/crates.py knows")
        crate.below = [crates[name] for name in crate.below if name in crates]
    set_levels(crates.values())
    return crates


def set_levels(crates):
    """Gives each crate its level, lowest first, and tells a circle of crates."""
    left, level = list(crates), 0
    while left:
        level += 1
        free = [crate for crate in left if all(it.level for it in crate.below)]
        if not free:
            raise Wrong(f"crates.txt: a crate stands on itself: {' > '.join(circle(left[0]))}")
        for crate in free:
            crate.level = level
        left = [crate for crate in left if not crate.level]


def circle(crate):
    """The names of a circle below a crate without a level, its first name again at its end."""
    names = []
    while crate.name not in names:
        names.append(crate.name)
        crate = next(it for it in crate.below if not it.level)
    return names[names.index(crate.name) :] + [crate.name]


def chain(crates):
    """The longest chain, highest crate first: of several, at each step the last one of crates.txt."""
    found, above = [], None
    while above is None or above.level > 1:
        level = max(it.level for it in crates) if above is None else above.level - 1
        above = [it for it in crates if it.level == level and (above is None or it in above.below)][-1]
        found.append(above.name)
    return found


def wrapped(head, names):
    """The lines of some crates side by side, after a head and below it."""
    lines = [head]
    for name in names:
        if len(lines[-1]) + len(name) > WIDTH and lines[-1].strip() and lines[-1] != head:
            lines.append(" " * len(head))
        lines[-1] += name + "  "
    return [line.rstrip() for line in lines]


def picture(crates):
    """The lines of the picture, the highest level first, with a line for each layer of a level."""
    layers = list(dict.fromkeys(it.layer for it in crates))
    wide, lines = max(map(len, layers)), []
    for level in range(max(it.level for it in crates), 0, -1):
        number = f"{level:2}"
        for layer in layers:
            names = [it.name for it in crates if (it.level, it.layer) == (level, layer)]
            if names:
                lines += wrapped(f"{number}  {layer:{wide}}  ", names)
                number = "  "
    return lines


def block(text):
    """The map of crates.txt's text as lines of Markdown."""
    crates = list(crates_of(text).values())
    if not crates:
        raise Wrong("crates.txt has no crate")
    names = chain(crates)
    return ["```", *picture(crates), "```", "", f"longest chain ({len(names)}): {' > '.join(names)}"]


def count(folder, ending):
    """The lines of the files of a folder with an ending."""
    total = 0
    for at, _, files in os.walk(folder):
        for name in files:
            if name.endswith(ending):
                with open(os.path.join(at, name), encoding="utf-8") as file:
                    total += sum(1 for _ in file)
    return total


def counts(text, top):
    """Lines on the lines of each crate, and of all."""
    rows = []
    for crate in crates_of(text).values():
        at = os.path.join(top, "crates", crate.name)
        parts = (("src", ".rt"), ("specs", ".antt"), ("proofs", ".antt"))
        rows.append((crate.name, crate.level, *(count(os.path.join(at, part), ending) for part, ending in parts)))
    rows.append(("all", "", *(sum(row[i] for row in rows) for i in (2, 3, 4))))
    wide = max(len(row[0]) for row in rows)
    head = f"{'crate':{wide}}  level     src   specs  proofs"
    return [head, *(f"{name:{wide}}  {level:>5}  {code:>6}  {specs:>6}  {proofs:>6}" for name, level, code, specs, proofs in rows)]


def act(words, text):
    """Does what the words say; answers whether they say anything."""
    if not words:
        print("\n".join(block(text)))
    elif words == ["--lines"]:
        print("\n".join(counts(text, TOP)))
    elif len(words) == 2 and words[0] == "--check":
        MAP.check(block(text), read(words[1]), words[1])
    elif len(words) == 2 and words[0] == "--write":
        MAP.write(block(text), words[1])
    else:
        return False
    return True


def main(words):
    return asked(lambda: act(words, read(os.path.join(TOP, "crates.txt"))), __doc__)


if __name__ == "__main__":
    sys.exit(ended(main))
