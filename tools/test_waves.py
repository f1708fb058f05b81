"""Tests of samples that a session's text has from WAV files: files by hand, the lines that they stand for, and what is wrong with others."""

import os
import subprocess
import sys
import unittest

import output
import wire
from maker import line_at, make
from teller import show
from testing import FRONT, TOOLS, InARoom, run_tool
from waves import positions_of, read_wave
from words import Wrong

SOUND = bytes.fromhex("e803e8030100ffff")


def file_of(shape, sound, *more):
    """A WAV file of these parts, each padded to an even length."""
    part = lambda name, data: name + len(data).to_bytes(4, "little") + data + b"\0" * (len(data) % 2)
    body = b"WAVE" + part(b"fmt ", shape) + b"".join(part(*it) for it in more) + part(b"data", sound)
    return b"RIFF" + len(body).to_bytes(4, "little") + body


def shape_of(kind, channels, rate, bits):
    frame = channels * bits // 8
    fields = (kind, 2), (channels, 2), (rate, 4), (rate * frame, 4), (frame, 2), (bits, 2)
    return b"".join(value.to_bytes(size, "little") for value, size in fields)


def extended(channels, bits, mask, kind="0100"):
    more = bytes.fromhex("1600") + bits.to_bytes(2, "little") + mask.to_bytes(4, "little") + bytes.fromhex(kind + "000000001000800000aa00389b71")
    return shape_of(0xFFFE, channels, 48_000, bits) + more


BEEP = file_of(shape_of(1, 1, 48_000, 16), SOUND)


class Files(unittest.TestCase):
    def test_a_file_by_hand(self):
        said = "52494646" "2c000000" "57415645" "666d7420" "10000000" "0100" "0100" "80bb0000" "00770100" "0200" "1000" "64617461" "08000000" "e803e8030100ffff"
        self.assertEqual(BEEP.hex(), said)
        self.assertEqual(read_wave(BEEP), ((3, 1, 48_000), [0], SOUND))

    def test_formats(self):
        for kind, bits, word in ((1, 8, "u8"), (1, 16, "s16le"), (1, 24, "s24le"), (1, 32, "s32le"), (6, 8, "alaw"), (7, 8, "ulaw")):
            data = bytes(2 * bits // 8)
            self.assertEqual(read_wave(file_of(shape_of(kind, 2, 8_000, bits), data)), ((wire.FORMATS.index(word), 2, 8_000), [1, 2], data))

    def test_what_the_tools_write(self):
        """Bytes of 24 bits in 32 come back in 24."""
        for word, there, code in (("s16le", "e803", 3), ("s16be", "03e8", 3), ("s24-32le", "01020300", 9), ("s32be", "00000001", 7), ("u8", "80", 0)):
            wave = read_wave(output.wav_file((wire.FORMATS.index(word), 1, 44_100), bytes.fromhex(there)))
            self.assertEqual(wave.spec, (code, 1, 44_100))
            self.assertEqual(wire.sample_of(code, wave.sound), wire.sample_of(wire.FORMATS.index(word), bytes.fromhex(there)))

    def test_other_parts_and_an_odd_length(self):
        data = file_of(shape_of(1, 1, 8_000, 8) + b"\0\0", b"\x80\x81\x82", (b"LIST", b"INFOabc"))
        self.assertEqual(read_wave(data), ((0, 1, 8_000), [0], b"\x80\x81\x82"))

    def test_masks(self):
        """5.1 is left, right, centre, low, and two behind; the numbers are PulseAudio's positions."""
        self.assertEqual(read_wave(file_of(extended(6, 16, 0x3F), bytes(12))), ((3, 6, 48_000), [1, 2, 3, 7, 5, 6], bytes(12)))
        found = (1, 0, [0]), (1, 4, [0]), (2, 0, [1, 2]), (2, 3, [1, 2]), (2, 0x600, [10, 11]), (3, 7, [1, 2, 3]), (3, 3, []), (4, 0, [])
        for channels, mask, positions in found:
            self.assertEqual(positions_of(channels, mask), positions)

    def test_what_is_wrong(self):
        for data, cause in (
            (b"", "no WAV file: it doesn't begin with RIFF and WAVE"),
            (b"OggS" + bytes(40), "no WAV file: it doesn't begin with RIFF and WAVE"),
            (BEEP[:12], "no WAV file: it has no format"),
            (BEEP[:36], "a WAV file without sound"),
            (BEEP[:-1], "it ends in the middle: its part data has 8 bytes, and 7 are there"),
            (file_of(shape_of(3, 1, 48_000, 32), bytes(4)),
             "its samples are floats of 32 bits; the server knows whole numbers of 8, 16, 24 and 32 bits, A-law and mu-law"),
            (file_of(shape_of(1, 1, 48_000, 64), bytes(8)), "its samples are whole numbers of 64 bits; the server knows"),
            (file_of(shape_of(0x55, 1, 48_000, 0), b""), "its samples are of the kind 85 of 0 bits"),
            (file_of(extended(2, 16, 3, "0300"), bytes(4)), "its samples are floats of 16 bits"),
            (file_of(extended(2, 16, 3)[:-1] + b"?", bytes(4)), "its samples are of a kind that no server knows"),
            (file_of(shape_of(1, 1, 48_000, 16), bytes(3)), "or its 3 bytes of sound aren't whole frames"),
            (file_of(shape_of(1, 33, 48_000, 8), bytes(33)), "33 channels of 8 bits are no frames of 33 bytes"),
        ):
            self.assertRaisesRegex(Wrong, cause, read_wave, data)


class Lines(InARoom):
    """Lines of a session's text that have a file."""

    def made(self, lines):
        return make(FRONT + lines + "end\n", self.room)

    def test_a_line_is_three_packets(self):
        self.path("beep.wav", BEEP)
        said = "upload 1 tag {} name bell s16le 1 48000 map {} length 8 {}\ndata 1 stream {} hex e803e8030100ffff\nfinish-upload 1 tag {} stream {}\n"
        first, second = said.format(1, 0, "", 0x80000000, 2, 0x80000000), said.format(9, 5, "media.name=from", 0x80000001, 10, 0x80000001)
        self.assertEqual(self.made("upload 1 name bell from beep.wav\n"), self.made(first))
        lines = "upload 1 from beep.wav tag 1 name bell\nupload 1 tag 9 map 5 name bell from beep.wav media.name=from\n"
        self.assertEqual(self.made(lines), self.made(first + second))
        self.assertEqual(self.made("upload 1 name from from beep.wav\n"), self.made(first.replace("bell", "from")))
        line = "upload 1 name from s16le 1 48000 map 0 length 2\n"
        self.assertEqual(self.made(line), self.made(line.replace("from s16le", "\"from\" s16le")))

    def test_it_is_shown_in_words(self):
        """Sound for an upload has the format of its line, in both directions."""
        self.path("beep.wav", BEEP)
        session = self.made("upload 1 name bell from beep.wav\n")
        self.assertEqual(show(session), FRONT + "upload 1 tag 1 name bell s16le 1 48000 map 0 length 8\ndata 1 stream 2147483648 1000x2 1 -1\n"
                         "finish-upload 1 tag 2 stream 2147483648\nend\n")
        self.assertEqual(make(show(session)), session)

    def test_long_sounds(self):
        """A sample has at most 1,048,576 bytes, in events of 65,536; the line has all of their bytes."""
        shape = shape_of(1, 1, 48_000, 8)
        self.path("long.wav", file_of(shape, bytes(1_048_576)))
        self.path("longer.wav", file_of(shape, bytes(1_048_577)))
        session = self.made("upload 1 name bell from long.wav\n")
        lines = "upload 1 name bell u8 1 48000 map 0 length 1048576\ndata 1 stream 0x80000000 hex 00x1048576\nfinish-upload 1 stream 0x80000000\n"
        self.assertEqual(session, self.made(lines))
        text = FRONT + "upload 1 name bell from long.wav\nend\n"
        for at, line in ((700_000, 4), (len(session) - 2, 4), (len(session) - 1, 5)):
            self.assertEqual(line_at(text, at, self.room)[0], line)
        cause = "^4: longer.wav: a sample has 1 to 1048576 bytes, and its sound 1048577$"
        self.assertRaisesRegex(Wrong, cause, self.made, "upload 1 name bell from longer.wav\n")

    def test_what_is_wrong(self):
        self.path("beep.wav", BEEP)
        self.path("none.wav", file_of(shape_of(1, 1, 48_000, 8), b""))
        self.path("four.wav", file_of(shape_of(1, 4, 48_000, 8), bytes(4)))
        self.path("text.wav", b"a text")
        for line, cause in (
            ("upload 1 name bell from gone.wav", "4: gone.wav: No such file or directory"),
            ("upload 1 name bell from text.wav", "4: text.wav: no WAV file: it doesn't begin with RIFF and WAVE"),
            ("upload 1 name bell from none.wav", "4: none.wav: a sample has 1 to 1048576 bytes, and its sound 0"),
            ("upload 1 name bell from four.wav", "4: four.wav: its 4 channels have no positions: say them, as in `map 1,2,5,6`"),
            ("upload 1 name bell from", "4: the line ends where a file should stand"),
            ("upload x name bell from beep.wav", "4: a connection is a number, which x isn't"),
            ("upload 1 name bell from beep.wav length 8", "4: length is said twice"),
            ("upload 1 name bell u8 1 48000 from beep.wav", "4: s16le is no field of this command"),
        ):
            with self.assertRaises(Wrong) as raised:
                self.made(line + "\n")
            self.assertEqual(str(raised.exception), cause)
        self.made("upload 1 name bell from four.wav map 1,2,5,6\n")

    def test_the_command(self):
        """Files stand beside the text, wherever the command is run; what is wrong names the text, the line and the file."""
        self.path("beep.wav", BEEP)
        text = self.path("bench.txt", (FRONT + "upload 1 name bell from beep.wav\nend\n").encode())
        ran = subprocess.run([sys.executable, "-B", os.path.join(TOOLS, "session.py"), "make", text], capture_output=True, cwd="/")
        self.assertEqual((ran.returncode, ran.stdout, ran.stderr), (0, self.made("upload 1 name bell from beep.wav\n"), b""))
        self.assertEqual(run_tool("session.py", "at", "620", text, cwd="/").stdout, f"{text}:4: upload 1 name bell from beep.wav\n")
        os.remove(os.path.join(self.room, "beep.wav"))
        ran = run_tool("session.py", "make", text, cwd="/")
        self.assertEqual((ran.returncode, ran.stdout, ran.stderr), (1, "", f"{text}:4: beep.wav: No such file or directory\n"))


if __name__ == "__main__":
    unittest.main()
