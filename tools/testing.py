"""What the tests of tools share: small sessions written by hand, the bytes of texts, commands that are run, and rooms for files."""

import os
import shutil
import subprocess
import sys
import tempfile
import unittest

from maker import make
from recording import read_session

TOOLS = os.path.dirname(os.path.abspath(__file__))
TOP = os.path.dirname(TOOLS)

HEADER = bytes.fromhex("50525331") + bytes(256) + bytes.fromhex("01036f757403010000bb80000000000a00000064")
SECOND = b"PRS2" + HEADER[4:]  # the same in the second form
SINK = "sink out s16le 1 48000 map 0 guard 10 depth 100\n"
CONNECT = bytes.fromhex("0100000001")
AUTH_FRAME = (
    bytes.fromhex("00000114ffffffff000000000000000000000000" "4c000000084c00000000" "4cc0000023" "7800000100")
    + bytes(256)
)
AUTH = bytes.fromhex("020000000100000128") + AUTH_FRAME
AUTH_TEXT = SINK + "connect 1\nauth 1 tag 0 version 35 shm memfd\n"
FRONT = SINK + "connect 1\nauth 1 tag 0 version 13\n"  # the fields of 13 follow
FRONT_18 = SINK + "connect 1\nauth 1 tag 0 version 18\n"
CREATE_TEXT = "create 1 tag 1 s16le 1 48000 map 0 tlength 400 prebuf 0 minreq 2\n"
CREATE = bytes.fromhex(
    "4c00000003" "4c00000001" "61030100" "00bb80" "6d0100" "4cffffffff" "4e" "4cffffffff" "30" "4c00000190"
    "4c00000000" "4c00000002" "4cffffffff" "760100010000" "303030303030303030" "504e"
)


def contents(*path):
    with open(os.path.join(TOP, *path), "rb") as file:
        return file.read()


def events(text):
    """The bytes after the header of AUTH_TEXT's session, without the end byte."""
    return make(text + "end\n")[len(HEADER) : -1]


def frame_of(line, front=FRONT):
    """The frame of the last line of a text."""
    return read_session(make(front + line + "\nend\n"))[2][-2][2]


def run(*words, **how):
    """Runs a command: its status, what it wrote and what it said."""
    ran = subprocess.run(words, capture_output=True, text=True, **how)
    return ran.returncode, ran.stdout, ran.stderr


def run_tool(tool, *words, **how):
    """Runs a tool: what became of it, with its text."""
    return subprocess.run([sys.executable, "-B", os.path.join(TOOLS, tool), *words], capture_output=True, text=True, **how)


class InARoom(unittest.TestCase):
    """Tests that have a folder of their own."""

    def setUp(self):
        self.room = tempfile.mkdtemp()
        self.addCleanup(shutil.rmtree, self.room)

    def path(self, name, data=None):
        """The path of a file of this room, with these bytes in it where there are any."""
        path = os.path.join(self.room, name)
        if data is not None:
            with open(path, "wb") as file:
                file.write(data)
        return path
