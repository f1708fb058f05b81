"""Tests of outputs: records told as text, and the sound of a sink as a WAV file."""

import io
import unittest
import wave

import output
import wire
from maker import make
from recording import read_session
from testing import AUTH_TEXT, CREATE_TEXT, FRONT, SINK, contents
from words import Wrong


def sent(conn, packet):
    frame = wire.packet_frame(bytes.fromhex(packet))
    return b"\1" + conn.to_bytes(4, "big") + len(frame).to_bytes(4, "big") + frame


class Outputs(unittest.TestCase):
    SESSION = read_session(make(AUTH_TEXT + "name 1\n" + CREATE_TEXT.replace("tag 1", "tag 2") + "end\n"))

    def test_stored_output(self):
        stored = contents("crates", "pulse_rw", "stdout")
        self.assertEqual(output.show(stored), ("sent 1 reply tag 0 number 18\nend\n", None))
        self.assertEqual(output.show(stored, self.SESSION), ("sent 1 reply tag 0 auth version 18\nend\n", None))

    def test_records(self):
        data = (
            sent(1, "4c000000024c000000014c00000000")
            + sent(1, "4c00000002" "4c00000002" "4c00000000" "4c00000000" "4c0002ee00" "4c00400000" "4c0002ee00"
                   "4c0002e682" "4c00000780" "61030100" "00bb80" "6d0100" "4c00000000" "746f757400" "30"
                   "550000000000000823")
            + sent(1, "4c000000004c000000074c00000001")
            + sent(1, "4c00000056" "4cffffffff" "4c00000000")
            + sent(1, "4c0000003d" "4cffffffff" "4c00000000" "4c00000190")
            + sent(1, "4c00000042" "4cffffffff" "4c00000012" "4c00000003")
            + bytes.fromhex("0200000001" "01" "08" "0000000000000023")
            + bytes.fromhex("0200000002" "04" "00" "0000000000000000")
            + bytes.fromhex("0300000000" "03" "e803" "e803" "ffff")
            + b"\0"
        )
        said, fault = output.show(data, self.SESSION)
        self.assertIsNone(fault)
        self.assertEqual(
            said.replace(" \\\n   ", ""),
            "sent 1 reply tag 1 name client 0\n"
            "sent 1 reply tag 2 create stream 0 input 0 wanted 192000 maxlength 4194304 tlength 192000 prebuf 190082 "
            "minreq 1920 spec s16le 1 48000 map 0 index 0 sink out suspended no usec 2083\n"
            "sent 1 error tag 7 ACCESS\n"
            "sent 1 started stream 0\n"
            "sent 1 request stream 0 bytes 400\n"
            "sent 1 event change input index 3\n"
            "closed 1: protocol fault, bad value at byte 35 of what it sent\n"
            "closed 2: cut for want of memory\n"
            "played out 3 frames: 1000x2 -1\n"
            "end\n",
        )

    def test_a_device_that_stopped(self):
        data = bytes.fromhex("0400" "0000000100000000" "00")
        self.assertEqual(output.show(data, self.SESSION), ("stopped out filled 4294967296\nend\n", None))
        self.assertEqual(output.show(data), ("stopped @0 filled 4294967296\nend\n", None))
        self.assertEqual(output.show(data[:9], self.SESSION), ("", "the output ends within the record that begins at 0"))
        self.assertEqual(output.show(b"\4\1" + bytes(9), self.SESSION), ("", "the session has no sink 1, at 0"))
        made, fault = output.wav(data, self.SESSION, "out")
        self.assertEqual((made[40:], fault), (bytes(4), None))

    def test_an_upper_byte_is_told(self):
        """24 bits in 32 are told as bytes where the upper byte is another than 0, which no sample says."""
        session = read_session(make("sink out s24-32be 1 48000 map 0 guard 0 depth 9\nend\n"))
        for sound, said in (("00000001", "1"), ("80000001", "hex 80000001")):
            data = bytes.fromhex("03" "00" "00000001" + sound + "00")
            self.assertEqual(output.show(data, session)[0], f"played out 1 frames: {said}\nend\n")

    def test_replies(self):
        spec, name, driver = "6103010000bb80" "6d0100", "746f757400", "7470756c73655f727700"
        sink = ("4c00000000" + name + name + spec + "4cffffffff" "760100010000" "30" "4cffffffff" "4e"
                "550000000000000000" + driver + "4c00000060" "504e" "550000000000000000")
        sink_words = ("index 0 sink out description out spec s16le 1 48000 map 0 module none volume 65536 mute no "
                      "monitor none monitor-name null usec 0 driver pulse_rw flags 96 properties none requested-usec 0")
        stream = ("4c00000005" "746100" "4cffffffff" "4c00000001" "4c00000000" + spec + "760100008000"
                  "550000000000000000" "550000000000000000" "4e" + driver + "31" "504e")
        client = "4c00000001" "4e" "4cffffffff" + driver + "50" "746100" "4c00000002" "7800000002" "6200" "4e"
        for line, fields, words in (
            ("latency 1 stream 0", "550000000000000682" "550000000000000000" "31" "540000000100000002"
             "540000000100000002" "7200000000000000c8" "72fffffffffffffffe" "520000000000000003" "520000000000000004",
             "usec 1666 source-usec 0 playing yes time 1:2 again 1:2 write 200 read -2 underrun 3 played 4"),
            ("attributes 1 stream 0", "4c00000001" "4c00000002" "4c00000003" "4c00000004" "550000000000000005",
             "maxlength 1 tlength 2 prebuf 3 minreq 4 usec 5"),
            ("server-info 1", driver + "743100" "7470756c736500" "746c6f63616c686f737400" "6103010000bb80" + name
             + "4e" "4c00000000", "server pulse_rw version 1 user pulse host localhost spec s16le 1 48000 sink out "
             "source null server-cookie 0"),
            ("sink-info 1 index 0", sink, sink_words),
            ("sink-infos 1", sink + sink, sink_words + " / " + sink_words),
            ("input-info 1 input 5", stream,
             "input 5 name a module none client 1 index 0 spec s16le 1 48000 map 0 volume 32768 usec 0 sink-usec 0 resampling null driver pulse_rw mute yes properties none"),
            ("client-info 1 client 1", client, "client 1 name null module none driver pulse_rw properties a=b"),
            ("lookup-sink 1 sink out", "4c00000002", "index 2"),
            ("flush 1 stream 0", "", ""),
        ):
            session = read_session(make(FRONT + line + " tag 5\nend\n"))
            said = output.show(sent(1, "4c00000002" "4c00000005" + fields) + b"\0", session)[0].replace(" \\\n   ", "")
            self.assertEqual(said, f"sent 1 reply tag 5 {line.split()[0]} {words}".rstrip() + "\nend\n")

    def test_replies_of_later_versions(self):
        """What is told of a sink and of the server grows at 15 and at 16; it is read by the version of its connection, also of one that comes again."""
        server = "7470756c73655f727700743100" "7470756c736500" "746c6f63616c686f737400" "6103010000bb80" "746f757400" "4e" "4c00000000"
        sink = ("4c00000000" "746f757400" "746f757400" "6103010000bb80" "6d0100" "4cffffffff" "760100010000" "30" "4cffffffff" "4e"
                "550000000000000000" "7470756c73655f727700" "4c00000060" "504e" "550000000000000000")
        later, ports = "5600010000" "4c00000000" "4c00010001" "4cffffffff", "4c00000000" "4e"
        told, also = " requested-usec 0 base 65536 state 0 steps 65537 card none", " ports 0 port null"
        for version, of_server, of_sink, ends in (
            (13, "", "", (" server-cookie 0", " requested-usec 0")), (14, "", "", (" server-cookie 0", " requested-usec 0")),
            (15, "6d0100", later, (" map 0", told)), (16, "6d0100", later + ports, (" map 0", told + also)),
            (18, "6d0100", later + ports, (" map 0", told + also)), (35, "6d0100", later + ports, (" map 0", told + also)),
        ):
            auth = f"connect 1\nauth 1 version {version}\n"
            text = SINK + auth + "server-info 1 tag 5\nsink-info 1 tag 6 index 0\nsink-infos 1 tag 7\nclose 1\n"
            text += "connect 1\nauth 1 version 14\nserver-info 1 tag 5\nend\n"
            data = sent(1, "4c00000002" "4c00000005" + server + of_server) + sent(1, "4c00000002" "4c00000006" + sink + of_sink)
            data += sent(1, "4c00000002" "4c00000007" + 2 * (sink + of_sink)) + sent(1, "4c00000002" "4c00000005" + server)
            lines = output.show(data + b"\0", read_session(make(text)))[0].replace(" \\\n   ", "").splitlines()
            self.assertTrue(lines[0].endswith(ends[0]))
            self.assertTrue(lines[1].endswith(ends[1]))
            self.assertEqual(lines[2].count(ends[1] + " / index 0") + lines[2].endswith(ends[1]), 2)
            self.assertTrue(lines[3].endswith(" source null server-cookie 0"))
            self.assertNotIn("hex", "".join(lines))

    def test_messages(self):
        stream, end = "4c00000002", "\nend\n"
        for number, fields, words in (
            (61, stream + "4c00000190", "request stream 2 bytes 400"), (62, stream, "overflow stream 2"),
            (63, stream, "underflow stream 2"), (64, stream, "killed stream 2"), (86, stream, "started stream 2"),
            (78, stream + "4c00000001" "746f757400" "30" "4c00000004" "4c00000003" "4c00000000" "4c00000002"
             "550000000000000009",
             "moved stream 2 index 1 sink out suspended no maxlength 4 tlength 3 prebuf 0 minreq 2 usec 9"),
            (66, "4c00000000" "4c00000001", "event new sink index 1"),
            (66, "4c00000025" "4c00000001", "event remove client index 1"),
            (66, "4c00000017" "4cffffffff", "event change server index none"),
        ):
            packet = f"4c{number:08x}" "4cffffffff" + fields
            self.assertEqual(output.show(sent(3, packet) + b"\0")[0].replace(" \\\n   ", ""), f"sent 3 {words}{end}")
        self.assertEqual(output.show(sent(3, "4c000000ff") + b"\0")[0], "sent 3 packet hex 4c000000ff" + end)
        for code, name in (
            (1, "ACCESS"), (2, "COMMAND"), (3, "INVALID"), (5, "NOENTITY"), (15, "BADSTATE"), (17, "VERSION"),
            (18, "TOOLARGE"), (19, "NOTSUPPORTED"), (23, "NOTIMPLEMENTED"), (26, "BUSY"),
        ):
            said = output.show(sent(1, f"4c00000000" "4c00000001" f"4c{code:08x}") + b"\0")[0]
            self.assertEqual(said, f"sent 1 error tag 1 {name}{end}")

    def test_closed(self):
        reasons = ["over a limit", "killed by a client", "cut for want of memory"]
        for code, words in enumerate(reasons, 2):
            said = output.show(bytes([2, 0, 0, 0, 9, code]) + bytes(9))[0].split("\n")[0]
            self.assertEqual(said, f"closed 9: {words}")
        faults = ["zero length", "too long", "packet flags", "shared memory", "seek mode", "wrong tag", "too short",
                  "bad value", "bytes left over"]
        for code, words in enumerate(faults, 1):
            said = output.show(bytes([2, 0, 0, 0, 9, 1, code]) + bytes(7) + b"\7")[0].split("\n")[0]
            self.assertEqual(said, f"closed 9: protocol fault, {words} at byte 7 of what it sent")

    def test_ended_early(self):
        played = bytes.fromhex("0300000000" "02" "e803" "e803")
        self.assertEqual(output.show(played + b"\0")[1],
                         "sound was played at 0: say the session that was replayed, with --session")
        self.assertEqual(output.show(played, self.SESSION),
                         ("played out 2 frames: 1000x2\nno end byte: the run ended before its session's end\n", None))
        self.assertEqual(output.show(played + played[:8], self.SESSION),
                         ("played out 2 frames: 1000x2\n", "the output ends within the record that begins at 10"))
        self.assertEqual(output.show(b"\0\0")[1], "bytes follow the end byte, from 1 on")
        self.assertEqual(output.show(b"\5")[1], "no record begins with 5, at 0")

    def test_wav(self):
        for word, data, width, frames in (
            ("u8", "0180ff00", 1, "0180ff00"), ("s16le", "e803feff", 2, "e803feff"),
            ("s16be", "03e8fffe", 2, "e803feff"),
            ("s24le", "010203fffeff", 3, "010203fffeff"), ("s24be", "030201fffeff", 3, "010203fffeff"),
            ("s24-32le", "01020300fffeff00", 3, "010203fffeff"), ("s24-32be", "0003020100fffeff", 3, "010203fffeff"),
            ("s32le", "0102030405060708", 4, "0102030405060708"), ("s32be", "0403020108070605", 4, "0102030405060708"),
        ):
            for channels in (1, 2):
                session = read_session(make(
                    f"sink a u8 1 8000 map 0 guard 0 depth 9\n"
                    f"sink b {word} {channels} 44100 map {','.join('0' * channels)} guard 0 depth 9\nend\n"))
                sound = bytes.fromhex(data)
                count = len(sound) // wire.frame_size(session[1][1].spec)
                record = b"\3\1" + count.to_bytes(4, "big") + sound
                made, fault = output.wav(b"\3\0\0\0\0\1\x80" + record + record + b"\0", session, "b")
                self.assertIsNone(fault)
                with wave.open(io.BytesIO(made)) as file:
                    self.assertEqual(file.getparams()[:4], (channels, width, 44100, 2 * count))
                    self.assertEqual(file.readframes(99).hex(), frames * 2)
        with self.assertRaises(Wrong):
            output.wav(b"\0", self.SESSION, "wide")

    def test_wav_that_ends_early(self):
        record = bytes.fromhex("0300000000" "02" "e803" "feff")
        for data, said in ((record, "it has no end byte"), (record + record[:7], "ends within the record that begins at 10")):
            made, fault = output.wav(data, self.SESSION, "out")
            self.assertEqual(made[-4:].hex(), "e803feff")
            self.assertIn(said, fault)

    def test_a_frame_that_no_packet_has(self):
        frame = bytearray(wire.packet_frame(b"L\0\0\0\2L\0\0\0\0"))
        for place in (3, 11, 15, 19):
            changed = frame[:]
            changed[place] ^= 1
            said = output.show(b"\1\0\0\0\1" + len(changed).to_bytes(4, "big") + changed + b"\0", self.SESSION)[0]
            self.assertIn("bytes hex", said)

    def test_closed_with_more_than_a_reason(self):
        self.assertIn("fault 3 at byte 1", output.show(bytes.fromhex("0200000001" "04" "63" "0000000000000001" "00"))[0].replace("fault 99", "fault 3"))
