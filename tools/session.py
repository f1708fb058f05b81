#!/usr/bin/env python3
"""Recorded sessions of pulse_rw as readable text.

  tools/session.py make FILE.txt > FILE.prs    makes a session from a text
  tools/session.py show FILE.prs               shows a session, a line an event, long sounds as a level and a count
  tools/session.py show FILE.prs whole         shows it whole, as a text that makes the same session again
  tools/session.py at OFFSET FILE.txt          says which line of a text makes the byte at an offset, as a refusal names it

docs/RECORDINGS.md says how a text reads. FILE is standard input where it is `-`. A session has its server's cookie, and so has a whole text: the
file that one of them goes into is made its owner's alone."""

import os
import sys

from command import ended, keep_private
from maker import line_at, make
from output import contents
from short import short
from teller import show
from words import Wrong


def done(words):
    """What the command writes, or None where its words are wrong."""
    if words[:1] == ["make"] and len(words) == 2:
        return make(contents(words[1]).decode(), os.path.dirname(words[1]))
    if words[:1] == ["show"] and len(words) in (2, 3) and words[2:] in ([], ["whole"]):
        text = show(contents(words[1]))
        return (text if words[2:] else short(text)).encode()
    if words[:1] == ["at"] and len(words) == 3 and words[1].isdigit():
        number, line = line_at(contents(words[2]).decode(), int(words[1]), os.path.dirname(words[2]))
        return f"{words[2]}:{number}: {line}\n".encode()
    return None


def main(words):
    file = words[2] if words[:1] == ["at"] and len(words) == 3 else "".join(words[1:2])
    try:
        made = done(words)
    except Wrong as wrong:
        print(f"{file}:{wrong}" if words[0] == "make" or str(wrong)[:1].isdigit() else f"{file}: {wrong}", file=sys.stderr)
        return 1
    except UnicodeDecodeError as fault:
        line = fault.object.count(b"\n", 0, fault.start) + 1
        print(f"{file}:{line}: no text in UTF-8: the byte 0x{fault.object[fault.start]:02x}", file=sys.stderr)
        return 1
    if made is None:
        print(__doc__, file=sys.stderr)
        return 2
    if words[0] == "make" or words[2:] == ["whole"]:
        keep_private()
    sys.stdout.buffer.write(made)
    return 0


if __name__ == "__main__":
    sys.exit(ended(main))
