"""Tests of sessions: texts against bytes that were written by hand."""

import unittest

import packets
import wire
from maker import make
from recording import FORMS, ONE, TWO, read_session, spelled_bytes, spelled_event, spelled_header
from teller import show
from testing import AUTH, AUTH_FRAME, AUTH_TEXT, CONNECT, CREATE, CREATE_TEXT, FRONT, FRONT_18, HEADER, SINK, contents, events, frame_of


class Bytes(unittest.TestCase):
    """Texts against bytes."""

    def test_first_session(self):
        session = HEADER + CONNECT + AUTH + b"\0"
        self.assertEqual(len(session), 591)
        self.assertEqual(make(AUTH_TEXT + "end\n"), session)
        self.assertEqual(show(session), AUTH_TEXT + "end\n")
        self.assertEqual(contents("crates", "pulse_rw", "stdin"), session)

    def test_header_alone(self):
        self.assertEqual(make(SINK + "end"), HEADER + b"\0")
        self.assertEqual(len(HEADER), 280)

    def test_byte_by_byte(self):
        text = SINK + "connect 1\nsplit 1\nauth 1 tag 0 version 35 shm memfd\nend\n"
        session = make(text)
        pieces = b"".join(spelled_bytes(1, AUTH_FRAME[at : at + 1]) for at in range(296))
        self.assertEqual(session, HEADER + CONNECT + pieces + b"\0")
        self.assertEqual(show(session), text)

    def test_broken_frames(self):
        for words, fault in (
            ("00000000ffffffff000000000000000000000000", "zero length"),
            ("01000001ffffffff000000000000000000000000", "too long"),
            ("00000002ffffffff000000000000000000000001", "packet flags"),
        ):
            session = HEADER + CONNECT + AUTH + spelled_bytes(1, bytes.fromhex(words)) + b"\0"
            self.assertIn(f"# the server ends connection 1 here: {fault}\n", show(session))
            self.assertEqual(make(show(session)), session)
        unfinished = bytes.fromhex("0100000000000005000000000000000000000000")
        session = HEADER + CONNECT + AUTH + spelled_bytes(1, unfinished) + b"\0"
        self.assertNotIn("#", show(session))
        self.assertEqual(make(show(session)), session)
        shared = frame_of("data 1 stream 5 flags 0x80000000 hex 0000")
        self.assertEqual(shared.hex(), "00000002" "00000005" "00000000" "00000000" "80000000" "0000")

    def test_cookies(self):
        short = frame_of("auth 1 tag 0 version 13 cookie 00x255")[20:]
        self.assertEqual(len(short), 275)
        self.assertEqual(short[:20].hex(), "4c000000084c000000004c0000000d78000000ff")
        other = frame_of("auth 1 tag 0 version 13 cookie 01x256")[20:]
        self.assertEqual(other[20:], b"\1" * 256)
        session = make("cookie 01x255 ff\n" + SINK + "connect 1\nauth 1 version 13\nend\n")
        self.assertTrue(session.endswith(b"\1" * 255 + b"\xff\0"))
        self.assertEqual(session[4:260], b"\1" * 255 + b"\xff")
        self.assertEqual(make(show(session)), session)

    def test_versions(self):
        for words, version in (("35", "00000023"), ("35 shm", "80000023"), ("0x20000023 memfd", "60000023")):
            self.assertEqual(frame_of(f"auth 1 tag 0 version {words}")[30:35].hex(), "4c" + version)

    def test_command_numbers(self):
        numbers = {
            "create": 3, "delete": 4, "create-record": 5, "delete-record": 6, "auth": 8, "name": 9, "lookup-sink": 10, "drain": 12, "latency": 14,
            "upload": 15, "delete-upload": 16, "finish-upload": 17, "play-sample": 18, "remove-sample": 19,
            "server-info": 20, "sink-info": 21, "sink-infos": 22, "source-infos": 24, "module-infos": 26,
            "client-info": 27, "client-infos": 28, "input-info": 29, "input-infos": 30, "source-output-infos": 32,
            "sample-infos": 34, "subscribe": 35, "sink-volume": 36, "volume": 37, "sink-mute": 39, "cork": 41,
            "flush": 42, "trigger": 43, "default-sink": 44, "stream-name": 46, "kill-client": 48, "kill-input": 49,
            "prebuf": 60, "move": 67, "mute": 69, "attributes": 72, "update-stream": 81, "update-client": 82,
            "remove-stream": 84, "remove-client": 85, "card-infos": 89,
        }
        self.assertEqual({word: number for word, (number, _) in packets.COMMANDS.items()}, numbers)

    def test_create(self):
        self.assertEqual(frame_of(CREATE_TEXT), b"\0\0\0\x45" + b"\xff" * 4 + bytes(12) + CREATE)

    def test_later_fields(self):
        """The fields of each version stand at the end, in the words and by default."""
        for version, bools in ((13, 0), (14, 2), (15, 5), (16, 5), (17, 6), (18, 7), (35, 7), (0xC0000010, 5)):
            front = SINK + f"connect 1\nauth 1 tag 0 version {version:#x}\n"
            self.assertEqual(frame_of(CREATE_TEXT, front)[20:], CREATE + b"0" * bools)
            asked = frame_of("attributes 1 tag 2 stream 0", front)[20:]
            self.assertEqual(asked.hex(), "4c00000048" "4c00000002" "4c00000000" + 4 * "4cffffffff" + "30" * (1 + (bools > 0)))
        for words, flags in (
            ("", "0000000"), ("volume 7", "1000000"), ("volume 7 volume_set off", "0000000"), ("volume_set on", "1000000"),
            ("early_requests", "0100000"), ("muted", "0010000"), ("muted muted_set off", "0000000"), ("muted_set on", "0010000"),
            ("dont_inhibit_auto_suspend", "0001000"), ("fail_on_suspend", "0000100"), ("relative_volume", "0000010"),
            ("passthrough", "0000001"),
        ):
            line = CREATE_TEXT.strip() + f" {words}"
            self.assertEqual(frame_of(line, FRONT_18)[-7:], flags.encode())
            text = FRONT_18 + line.rstrip() + "\nend\n"
            self.assertEqual(show(make(text)).replace(" \\\n   ", ""), text)
        self.assertEqual(frame_of("attributes 1 stream 0 early_requests", FRONT_18)[-2:], b"01")

    def test_another_version_for_a_packet(self):
        """A packet that isn't one at its connection's version is told at the first version that has it."""
        for version, said in ((13, "at 13 "), (14, "at 14 "), (15, "at 15 "), (16, "at 15 "), (17, "at 17 "), (18, "")):
            session = make(FRONT_18 + CREATE_TEXT.replace("tag 1", f"at {version} tag 1") + "end\n")
            self.assertIn(f"create 1 tag 1 {said}s16le", show(session))
            self.assertEqual(make(show(session)), session)
        session = make(FRONT + "create 1 at 18 s16le 1 48000 map 0 passthrough\nend\n")
        self.assertIn("create 1 tag 1 at 18 s16le 1 48000 map 0 passthrough\n", show(session))

    def test_the_version_is_of_an_auth_that_is_taken(self):
        for lines, bools in (
            ("auth 1 version 12", 0), ("auth 1 version 18 cookie 01x256", 0), ("auth 1 version 12\nauth 1 version 16", 5),
            ("auth 1 version 14\nauth 1 version 18", 2), ("auth 1 version 18\nclose 1\nconnect 1", 0),
            ("auth 1 version 18\nconnect 2\nauth 2 version 13", 7), ("", 0),
        ):
            self.assertEqual(frame_of(CREATE_TEXT, SINK + f"connect 1\n{lines}\n")[20:], CREATE + b"0" * bools)

    def test_data(self):
        front = FRONT + CREATE_TEXT
        self.assertEqual(
            frame_of("data 1 stream 0 1000x2 -1", front).hex(), "00000006" + "00" * 16 + "e803e803ffff"
        )
        sought = frame_of("data 1 stream 0 offset -4 seek relative-end 1", front)
        self.assertEqual(sought.hex(), "00000002" "00000000" "ffffffff" "fffffffc" "00000003" "0100")

    def test_events(self):
        text = "turn out 100 take 3\ncollect out take 2\nturn @5 0 take 0\nbytes 7\ncut 7\nclose 7\n"
        said = events(SINK + text)
        self.assertEqual(said.hex(), "05000000006400000003" "060000000002" "05050000000000000000"
                         "020000000700000000" "0400000007" "0300000007")

    def test_the_second_form(self):
        """Its counts and lengths have eight bytes, and there is Stop."""
        text = "turn out 100 take 3\ncollect out take 2\nturn out 4294967296 take 18446744073709551615\nstop out\nstop @5\nbytes 7 hex 01\ncut 7\n"
        session = make("form 2\n" + SINK + text + "end\n")
        self.assertEqual(session, b"PRS2" + HEADER[4:] + bytes.fromhex(
            "0500" "0000000000000064" "0000000000000003" "0600" "0000000000000002" "0500" "0000000100000000" "ffffffffffffffff"
            "0700" "0705" "0200000007" "0000000000000001" "01" "0400000007" "00"))
        self.assertEqual(show(session), "form 2\n" + SINK + text + "end\n")
        self.assertEqual(make("form 1\n" + AUTH_TEXT + "end\n"), make(AUTH_TEXT + "end\n"))
        for form in FORMS:
            again = read_session(make(f"form {form.number}\n" + AUTH_TEXT + "turn out 0 take 0\ncollect out take 1\nend\n"))
            self.assertEqual(again.form, form)
            self.assertEqual(show(spelled_header(again.cookie, again.sinks, TWO) + b"".join(spelled_event(it, TWO) for it in again.events)),
                             "form 2\n" + AUTH_TEXT + "turn out 0 take 0\ncollect out take 1\nend\n")

    def test_the_longest_bytes(self):
        """One event carries up to 65,536 bytes in the first form, up to 1,048,576 in the second."""
        for form, most in ((ONE, 65_536), (TWO, 1_048_576)):
            front = f"form {form.number}\n" + SINK + "connect 1\n"
            for size, lengths in ((most, [most]), (most + 1, [most, 1])):
                session = make(front + f"bytes 1 hex 00x{size}\nend\n")
                self.assertEqual([len(event[2]) for event in read_session(session).events if event[0] == 2], lengths)
                self.assertEqual(make(show(session)), session)
            self.assertEqual(make(front + f"split {most}\nbytes 1 hex 00x{most + 1}\nend\n"), session)

    def test_name(self):
        named = frame_of("name 1 tag 1 application.name=paplay")[20:]
        self.assertEqual(named.hex(), "4c000000094c0000000150" + "74" + b"application.name".hex() + "00"
                         "4c00000007" "7800000007" + b"paplay".hex() + "00" "4e")

    def test_tags_are_counted(self):
        said = make(FRONT + "name 1\nflush 1 stream 0\nflush 1 tag 9 stream 0\nflush 1 stream 0\nend\n")
        tags = [packets.read_packet(event[2][20:], 13)[1] for event in read_session(said)[2] if event[0] == 2]
        self.assertEqual(tags, [0, 1, 2, 9, 10])

    def test_tones_go_on(self):
        front = FRONT + CREATE_TEXT
        whole = frame_of("data 1 stream 0 tone 440 amplitude 8000 frames 300", front)
        parts = make(front + "data 1 stream 0 tone 440 amplitude 8000 frames 100\n"
                     "data 1 stream 0 tone 440 amplitude 8000 frames 50 tone 440 amplitude 8000 frames 150\nend\n")
        pieces = [event[2][20:] for event in read_session(parts)[2] if event[0] == 2][2:]
        self.assertEqual(b"".join(pieces), whole[20:])


class Samples(unittest.TestCase):
    def test_values(self):
        for word, value, data in (
            ("u8", -128, "00"), ("u8", 127, "ff"), ("u8", 0, "80"), ("s16le", -2, "feff"), ("s16be", -2, "fffe"),
            ("s24be", -8388608, "800000"), ("s24-32le", 1, "01000000"), ("s24-32be", -1, "00ffffff"),
            ("s32be", 1, "00000001"), ("alaw", 0xD5, "d5"), ("s24le", 0x123456, "563412"),
        ):
            code = wire.FORMATS.index(word)
            self.assertEqual(wire.sample_bytes(code, value).hex(), data)
            self.assertEqual(wire.sample_of(code, bytes.fromhex(data)), value)
        self.assertEqual(wire.sample_of(11, bytes.fromhex("010000ff")), 1)
