#!/usr/bin/env python3
"""The files of tools/ that some tools want: these and the modules that they import, in a line each.

  tools/needed.py NAME.."""

import ast
import os
import sys

from command import ended

TOOLS = os.path.dirname(os.path.abspath(__file__))


def file_of(name):
    """The file of a tool or a module here, or None."""
    return next((file for file in (name + ".py", name) if os.path.isfile(os.path.join(TOOLS, file))), None)


def imports_of(file):
    """The names of the modules that a file imports."""
    with open(os.path.join(TOOLS, file), encoding="utf-8") as text:
        tree = ast.parse(text.read(), file)
    for node in ast.walk(tree):
        if isinstance(node, ast.Import):
            yield from (alias.name for alias in node.names)
        elif isinstance(node, ast.ImportFrom):
            yield node.module


def needed(names):
    """The files of some tools and of all that they import, from here alone."""
    found, wanted = set(), [file_of(name) for name in names]
    while wanted:
        file = wanted.pop()
        if file is not None and file not in found:
            found.add(file)
            wanted += [file_of(name) for name in imports_of(file)]
    return sorted(found)


def main(words):
    wrong = [word for word in words if file_of(word) is None]
    if wrong or not words:
        print(f"tools/{wrong[0]}: there is no such tool" if wrong else __doc__, file=sys.stderr)
        return 1 if wrong else 2
    print("\n".join(needed(words)))
    return 0


if __name__ == "__main__":
    sys.exit(ended(main))
