"""A block of a document that a tool makes, between two lines that mark its place."""

from command import read
from words import Wrong


class Marked:
    """A block: its kind, the lines that mark its place, what its lines are, and the tool that makes it."""

    def __init__(self, kind, first, last, says, tool):
        self.kind, self.first, self.last, self.says, self.tool = kind, first, last, says, tool

    def place(self, lines, path):
        """Where the block of a file begins and ends."""
        first, last = self.first, self.last
        if lines.count(first) != 1 or lines.count(last) != 1 or lines.index(last) < lines.index(first):
            raise Wrong(f"{path}: {self.kind} stands between one line {first} and one line {last}")
        return lines.index(first) + 1, lines.index(last)

    def check(self, wanted, said, path):
        """Tells where the block of a file's text differs from the lines wanted."""
        lines = said.split("\n")
        start, end = self.place(lines, path)
        here = lines[start:end]
        for i in range(max(len(wanted), len(here))):
            if wanted[i : i + 1] != here[i : i + 1]:
                one, other = (part[i].strip() if i < len(part) else "no more lines" for part in (wanted, here))
                raise Wrong(f"{path}:{start + i + 1}: {self.says}: {one}; and here: {other} ({self.tool} --write {path})")

    def written(self, wanted, said, path):
        """The text of a file, with these lines in the block's place."""
        lines = said.split("\n")
        start, end = self.place(lines, path)
        return "\n".join(lines[:start] + wanted + lines[end:])

    def write(self, wanted, path):
        """Puts these lines into a file."""
        changed = self.written(wanted, read(path), path)
        with open(path, "w", encoding="utf-8") as file:
            file.write(changed)
