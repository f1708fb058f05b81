#!/usr/bin/env python3
"""The documents, held against the repository: README.md, HACKING.md, CHANGELOG.md, conformance/README.md and docs/*.md.

  tools/docs.py [FILE..]        each fault of them in a line: the file, the line and the cause
  tools/docs.py --count         how many bytes each document has, and how many faults of each kind

A fault is a document with more bytes than its reader has time for (`SIZES` has how many), a line over 160 characters outside of tables and code, a link to nothing, a numbered point (`- **7** ..`) whose number another has, and the name of
a crate, a file or a function that isn't there. Names are looked at in backticks, and paths below docs/, tools/, conformance/, examples/, crates/, package/ and man/ wherever they stand. A crate is `px_world`, a
file `px_world/src/event.rt`, `src/event.rt` (of a crate that the paragraph names, or of any), `event.rt` or `docs/SERVING.md`, a function `px_app::run`,
`World::event` or `event.rt: event`. A name with an underscore or with two capitals, as `worked_rows` or `IsPlayed`, must stand somewhere in the sources. A word of
capitals alone in a path or a name, as in `crates/NAME/src` and `dice_N`, stands for another."""

import os
import re
import sys

from command import ended, read
from crates import KIT, crates_of
from definitions import named_in
from words import Wrong

TOP = os.path.dirname(os.path.dirname(os.path.abspath(__file__)))
WIDEST = 160
KINDS = "size", "long", "link", "crate", "file", "name", "number"
# how many bytes a document has at most; what is longer goes to docs/history/
SIZES = {
    "README.md": 5_000,
    "HACKING.md": 8_192,
    "docs/ARCHITECTURE.md": 12_000,
    "docs/BELIEVE.md": 10_240,
    "docs/BENCHMARKS.md": 6_144,
    "docs/DECISIONS.md": 40_000,
    "docs/PROVED.md": 30_720,
}
FOLDERS = "docs|tools|conformance|examples|crates|package|man|bench"
PATH = re.compile(rf"(?<![\w./-])(?:\./)?((?:{FOLDERS})/[\w./-]*[\w/-])")
FILE = re.compile(r"([\w.-]+(?:/[\w.-]+)*\.(?:rt|antt|py|sh|md|c|edit))(?:: (\w+))?")
CRATE = re.compile(r"(?:px|tests)_\w+")
JOINED = re.compile(r"(\w+)::(\w+)(?:\(.*\))?")
PLAIN = re.compile(r"(?:[a-z]\w*_\w+|(?:[A-Z][a-z0-9]+){2,})(?:\(.*\))?")
LINK = re.compile(r"\[[^\]]*\]\(([^)\s]+)\)")
TICKED = re.compile(r"`([^`]+)`")
NUMBERED = re.compile(r"- \*\*(\d+)\*\* ")
STANDS_FOR = re.compile(r"[A-Z]+")
SOURCES = (".rt", ".antt", ".py", ".sh", ".c", ".txt", "")
FOREIGN = re.compile(r"pa_\w+|max_rewind|real_volume|HashMap")  # names of PulseAudio's code, and of Rust's library
FOREIGN_FILES = ("protocol-native.c", "tagstruct.c")


class Sources:
    """What the repository has that a document may name."""

    def __init__(self, top):
        self.top, self.crates = top, crates_of(read(os.path.join(top, "crates.txt")))
        self.paths, self.bases, self.words, self.declared = set(), {}, set(), {}
        for at, folders, files in os.walk(top):
            folders[:] = sorted(it for it in folders if it not in ("out", ".git", "__pycache__", "sound"))
            for name in sorted(files):
                self.add(os.path.relpath(os.path.join(at, name), top))

    def add(self, path):
        self.paths.add(path)
        self.bases.setdefault(os.path.basename(path), []).append(path)
        if os.path.splitext(path)[1] in SOURCES and not path.startswith("docs/"):
            try:
                text = read(os.path.join(self.top, path))
            except Wrong:  # no text
                return
            self.words.update(re.findall(r"\w+", text))
            if path.endswith(".rt") and "/src/" in path:
                self.declared.setdefault(path.split("/")[1], {})[path] = named_in(text)

    def is_path(self, path):
        """Whether there is a file or a folder of this path."""
        return path in self.paths or os.path.isdir(os.path.join(self.top, path))

    def files_of(self, name, beside):
        """The files that a name of a file may mean, where some crates are named beside it."""
        if name in self.paths:
            return [name]
        if f"crates/{name}" in self.paths:
            return [f"crates/{name}"]
        found = [path for path in self.bases.get(os.path.basename(name), []) if path.endswith("/" + name)]
        near = [path for path in found if path.split("/")[1] in beside]
        return near or found

    def declares(self, crate, name):
        """Whether a crate's code declares a name, or passes one on."""
        there = self.declared.get(crate, {})
        root = f"crates/{crate}/src/lib.rt"
        return any(name in names for names in there.values()) or root in self.paths and re.search(rf"\b{name}\b", read(os.path.join(self.top, root))) is not None

    def has_method(self, kind, name):
        """Whether a type or a trait is declared in a crate that has this name too."""
        for crate, there in self.declared.items():
            if any(kind in names for names in there.values()) and any(re.search(rf"\b{name}\b", read(os.path.join(self.top, path))) for path in there):
                return True
        return False


def is_placeholder(path):
    """Whether a part of a path is a word of capitals, which stands for a name; a document's name isn't one."""
    return any(STANDS_FOR.fullmatch(part.split(".")[0]) and not part.endswith(".md") for part in path.split("/"))


def name_fault(sources, name, beside):
    """What is wrong with a name in backticks: its kind and the cause, or None."""
    file, joined = FILE.fullmatch(name), JOINED.fullmatch(name)
    if CRATE.fullmatch(name):
        return None if name in sources.crates else ("crate", f"there is no crate {name}")
    if file:
        path, function = file.groups()
        found = sources.files_of(path, beside)
        if not found and not is_placeholder(path) and path not in FOREIGN_FILES:
            return "file", f"there is no file {path}"
        if function and found and not any(re.search(rf"\b{function}\b", read(os.path.join(sources.top, it))) for it in found):
            return "name", f"{path} has no {function}"
    elif joined:
        front, back = joined.groups()
        if front in sources.crates:
            return None if sources.declares(front, back) else ("name", f"{front} has no {back}")
        if front not in KIT and front != "std" and not sources.has_method(front, back):
            return "name", f"no crate has {front}::{back}"
    elif PLAIN.fullmatch(name) and not FOREIGN.fullmatch(name):
        bare = name.split("(")[0]
        if bare not in sources.words and not any(STANDS_FOR.fullmatch(part) for part in bare.split("_")):
            return "name", f"{bare} stands nowhere in the sources"
    return None


def anchors_of(text):
    """The anchors of a document's headings."""
    heads = re.findall(r"^#+ +(.*)$", text, re.M)
    return {re.sub(r"[^\w -]", "", head.lower()).strip().replace(" ", "-") for head in heads}


def link_fault(sources, path, target):
    """What is wrong with a link, or None."""
    if re.match(r"[a-z]+:", target):
        return None
    place, _, anchor = target.partition("#")
    whole = os.path.normpath(os.path.join(os.path.dirname(path), place)) if place else path
    if not (whole in sources.paths or os.path.isdir(os.path.join(sources.top, whole))):
        return "link", f"the link {target} leads to nothing"
    if anchor and anchor not in anchors_of(read(os.path.join(sources.top, whole))):
        return "link", f"{whole} has no heading for the link {target}"
    return None


def kinds_of(lines):
    """Of each line, whether it is code, a row of a table, blank or text."""
    kinds, fenced = [], False
    for line in lines:
        before = kinds[-1] if kinds else "blank"
        if line.lstrip().startswith("```"):
            kinds.append("code")
            fenced = not fenced
        elif fenced or line.startswith("    ") and line.strip() and before in ("blank", "code"):
            kinds.append("code")
        else:
            kinds.append("table" if line.startswith("|") else "text" if line.strip() else "blank")
    return kinds


def paragraphs(lines, kinds):
    """Of each line, the crates that its paragraph, row or point of a list names."""
    beside, start = [set() for _ in lines], 0
    for i in range(len(lines) + 1):
        apart = i == len(lines) or kinds[i] in ("blank", "table") or kinds[i - 1] == "table" or re.match(r"\s*(?:[-*]|\d+\.) ", lines[i])
        if apart and i > start:
            crates = set(CRATE.findall("\n".join(lines[start:i])))
            for at in range(start, i):
                beside[at] = crates
            start = i
    return beside


def heading_crates(lines):
    """Of each line, the crates that the headings above it name."""
    found, here = [], set()
    for line in lines:
        if line.startswith("#"):
            here = set(CRATE.findall(line))
        found.append(here)
    return found


def number_faults(lines):
    """The numbered points of a document whose number stands above them already."""
    first, found = {}, []
    for number, line in enumerate(lines, 1):
        point = NUMBERED.match(line)
        if point and first.setdefault(point[1], number) != number:
            found.append((number, "number", f"{point[1]} is the number of line {first[point[1]]} too"))
    return found


def size_faults(path, text):
    """That a document has more bytes than it may, at the line of the first of these, or nothing."""
    data, most = text.encode(), SIZES.get(path)
    if most is None or len(data) <= most:
        return []
    return [(data.count(b"\n", 0, most) + 1, "size", f"{path} has {len(data):,} bytes, and {most:,} are the most: what is longer goes to docs/history/")]


def faults_of(sources, path, text):
    """The faults of a document: the line, the kind and the cause of each."""
    lines = text.split("\n")
    kinds, found = kinds_of(lines), size_faults(path, text) + number_faults(lines)
    for number, (line, kind, near, above) in enumerate(zip(lines, kinds, paragraphs(lines, kinds), heading_crates(lines)), 1):
        if kind == "text" and len(line) > WIDEST:
            found.append((number, "long", f"{len(line)} characters, and {WIDEST} are the most"))
        names = TICKED.findall(line) if kind != "code" else []
        faults = [name_fault(sources, name, near or above) for name in names]
        faults += [link_fault(sources, path, target) for target in LINK.findall(TICKED.sub("", line)) if kind != "code"]
        for place in dict.fromkeys(PATH.findall(line)):
            if not sources.is_path(place) and not is_placeholder(place) and place not in names:
                faults.append(("file", f"there is no file {place}"))
        found += [(number, *fault) for fault in faults if fault]
    return found


def documents(sources):
    """The documents that are looked at."""
    heads = [name for name in ("README.md", "HACKING.md", "CHANGELOG.md", "conformance/README.md") if name in sources.paths]
    return heads + sorted(path for path in sources.paths if re.fullmatch(r"docs/[\w.-]+\.md", path))


def main(words):
    if any(word.startswith("-") for word in words) and words != ["--count"]:
        print(__doc__, file=sys.stderr)
        return 2
    try:
        sources = Sources(TOP)
        asked = [os.path.relpath(word, TOP) for word in words] if words and words != ["--count"] else documents(sources)
        found = [(path, *fault) for path in asked for fault in faults_of(sources, path, read(os.path.join(TOP, path)))]
    except Wrong as wrong:
        print(wrong, file=sys.stderr)
        return 1
    if words == ["--count"]:
        print(f"{'':24}  bytes   most" + "".join(f"{kind:>7}" for kind in KINDS))
        for path in asked:
            print(f"{path:24}{os.path.getsize(os.path.join(TOP, path)):7}{SIZES.get(path, ''):>7}" + "".join(f"{sum(1 for it in found if it[0] == path and it[2] == kind):7}" for kind in KINDS))
    else:
        for path, number, _, cause in found:
            print(f"{path}:{number}: {cause}")
    return 1 if found else 0


if __name__ == "__main__":
    sys.exit(ended(main))
