"""What the commands of tools/ share: how they end, how they read a text, and how they keep a cookie to its owner."""

import os
import stat
import sys

from words import Wrong


def ended(main):
    """Runs a command, and answers its status. A pipe that is closed, a full disk or a folder is told in a line, or not at all."""
    try:
        status = main(sys.argv[1:])
        sys.stdout.flush()
        return status
    except BrokenPipeError:
        pass  # who reads has seen enough
    except OSError as fault:
        print(f"{fault.filename or 'output'}: {fault.strerror}", file=sys.stderr)
    # what stands in the buffer still can't be written: it is let go
    os.dup2(os.open(os.devnull, os.O_WRONLY), sys.stdout.fileno())
    return 1


def asked(act, page):
    """Does what a command was asked for; answers its status. What is wrong is told in a line; where nothing was asked for its page is shown."""
    try:
        if act():
            return 0
    except Wrong as wrong:
        print(wrong, file=sys.stderr)
        return 1
    print(page, file=sys.stderr)
    return 2


def read(path):
    """The text of a file. Where it isn't in UTF-8 the line and the byte are told."""
    try:
        with open(path, encoding="utf-8") as file:
            return file.read()
    except UnicodeDecodeError as fault:
        line = fault.object.count(b"\n", 0, fault.start) + 1
        raise Wrong(f"{path}:{line}: no text in UTF-8: the byte 0x{fault.object[fault.start]:02x}") from None


def keep_private():
    """Where the standard output is a file, nobody but its owner may read or write it from here on: what it gets has a cookie. A file that belongs to
    another, or a disk without such modes, stays as it is."""
    output = sys.stdout.fileno()
    if stat.S_ISREG(os.fstat(output).st_mode):
        try:
            os.fchmod(output, stat.S_IRUSR | stat.S_IWUSR)
        except PermissionError:
            pass
