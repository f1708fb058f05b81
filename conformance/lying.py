"""Rows of conformance/live with the words `ctl` against servers of Python's own, which answer what the row says. What is told of a fault is reckoned here by
hand: an offset counts all bytes that the server sent."""

import os
import socket
import subprocess
import threading
import time

import wire
from asking import (
    ERROR, INPUT_INFOS, SET_SINK_VOLUME, SET_INPUT_VOLUME, KILL_INPUT, MOVE_INPUT, SET_INPUT_MUTE, MESSAGE, LONGEST, SILENCE, COOKIE, ctl,
    agree, refused, bad, GONE, SILENT, DONE,
)
from client import AUTH, REPLY, SET_NAME, UNSET, VERSION
from served import PATIENCE


def reply(tag, *fields):
    return wire.packet_frame(b"".join((wire.number(REPLY), wire.number(tag), *fields)))


def error(tag, code):
    return wire.packet_frame(b"".join((wire.number(ERROR), wire.number(tag), wire.number(code))))


def message(size=18):
    """The frame of a message with a packet of `size` bytes, of which all after the tag mean nothing."""
    return wire.packet_frame(wire.number(66) + wire.number(MESSAGE) + bytes(size - 10))


FIRST = reply(0, wire.number(18))  # 35 bytes
SECOND = reply(1, wire.number(7))  # 35 bytes
THIRD = reply(2)  # 30 bytes


class Answering:
    """A server at a socket that answers each frame of its one client by the next of these answers, and sends no more after the last: its client finds
    the end there, or where it `waits`, nothing. `heard` are the frames."""

    def __init__(self, path, answers, waits=False):
        self.answers, self.waits, self.heard = list(answers), waits, []
        self.listening = socket.socket(socket.AF_UNIX)
        self.listening.bind(path)
        self.listening.listen()
        self.thread = threading.Thread(target=self.serve, daemon=True)
        self.thread.start()

    def serve(self):
        with self.listening, self.listening.accept()[0] as client:
            try:
                for answer in self.answers:
                    self.heard.append(self.frame(client))
                    for piece in [answer] if isinstance(answer, bytes) else answer:
                        client.sendall(piece)
                if not self.waits:
                    client.shutdown(socket.SHUT_WR)
                while client.recv(65_536):
                    pass
            except OSError:
                pass  # the client had enough

    def frame(self, client):
        """The next frame, or what there was of it."""
        head = self.take(client, 20)
        return head + self.take(client, wire.Descriptor(head).length) if len(head) == 20 else head

    def take(self, client, count):
        came = b""
        while len(came) < count and (more := client.recv(count - len(came))):
            came += more
        return came


def answered(program, folder, answers, *words, waits=False, **how):
    """What `ctl` says to a server with these answers, and the frames that it sent."""
    path = os.path.join(folder, "answering")
    if os.path.exists(path):
        os.unlink(path)
    server = Answering(path, answers, waits)
    said = ctl(program, path, COOKIE, *words, **how)
    server.thread.join(timeout=PATIENCE)
    return said, server.heard


def sends(program, folder):
    """Each errand is sent as its packet, after the cookie and the name, whose replies came."""
    named = wire.properties([(b"application.name", b"pulse_rw ctl\0")])
    before = [wire.number(AUTH) + wire.number(0) + wire.number(VERSION) + wire.arbitrary(COOKIE), wire.number(SET_NAME) + wire.number(1) + named]
    unset, by_name = wire.number(UNSET), wire.text(b"desk")
    for words, command, fields in (
        (("list",), INPUT_INFOS, b""),
        (("volume", "0", "32768"), SET_INPUT_VOLUME, bytes.fromhex("4c00000000 7601 00008000")),
        (("volume", "4294967295", "2147483647"), SET_INPUT_VOLUME, unset + wire.volume([2_147_483_647])),
        (("mute", "3", "on"), SET_INPUT_MUTE, wire.number(3) + b"1"),
        (("mute", "3", "off"), SET_INPUT_MUTE, wire.number(3) + b"0"),
        (("sink-volume", "desk", "0"), SET_SINK_VOLUME, unset + by_name + wire.volume([0])),
        (("move", "7", "desk"), MOVE_INPUT, wire.number(7) + unset + by_name),
        (("kill", "7"), KILL_INPUT, wire.number(7)),
    ):
        said, heard = answered(program, folder, [FIRST, SECOND, THIRD], *words, waits=True)
        packets = [*before, wire.number(command) + wire.number(2) + fields]
        if not (agree(said, DONE) and agree(heard, [wire.packet_frame(packet) for packet in packets])):
            return False
    return True


def info(index, sink, volumes, mute):
    """The fields of an input in the reply to its list at version 18."""
    kind = wire.spec((3, len(volumes), 44_100)) + wire.channel_map([1, 2, 3, 5][: len(volumes)])
    wide = b"U" + bytes(8)
    items = [wire.number(index), wire.text(b"song"), wire.number(UNSET), wire.number(9), wire.number(sink), kind, wire.volume(volumes), wide, wide]
    items += [wire.text(b"copy"), wire.text(b"protocol-native.c"), wire.flag(mute), wire.properties([(b"media.name", b"song\0")])]
    return b"".join(items)


def lists_inputs(program, folder):
    """A list is told in the order of its reply, with all channels. Messages before and between the replies are passed over, in any cutting, and what
    comes after the last reply isn't heard."""
    inputs = info(4_294_967_294, 3, [0, 2_147_483_647], True) + info(0, 0, [65_536], False)
    text = "input 4294967294 sink 3 volume 0,2147483647 mute yes\ninput 0 sink 0 volume 65536 mute no\n"
    for answers in (
        [FIRST, SECOND, reply(2, inputs)],
        [FIRST, SECOND, reply(2, inputs) + bytes(20)],
        [message() + FIRST, message(10) + message(70_000) + SECOND, message() * 3 + reply(2, inputs)],
        [(FIRST[:1], FIRST[1:19], FIRST[19:]), (SECOND[:21], SECOND[21:]), [bytes([byte]) for byte in reply(2, inputs)]],
    ):
        if not agree(answered(program, folder, answers, "list")[0], (0, text, "")):
            return False
    return agree(answered(program, folder, [FIRST, SECOND, reply(2)], "list")[0], DONE)


def bad_replies(program, folder):
    """What isn't the awaited reply is told by its offset: a fault's own, or that of the frame's payload."""
    zero, long = bytes(20), b"\xff" * 20
    flags = bytes.fromhex("0000000a ffffffff 00000000 00000000 00000001") + bytes(10)
    shared = bytes.fromhex("0000000a 00000000 00000000 00000000 80000000") + bytes(10)
    seek = bytes.fromhex("0000000a 00000000 00000000 00000000 00000004") + bytes(10)
    data = wire.frame_of(0, 0, 0, bytes(8))
    for words, answers, at in (
        # faults of frames: at the word of the length, or at that of the flags
        (("list",), [zero], 0),
        (("list",), [long], 0),
        (("list",), [flags], 16),
        (("list",), [shared], 16),
        (("list",), [seek], 16),
        (("list",), [FIRST + zero], 35),
        (("list",), [FIRST, SECOND + flags], 86),
        (("list",), [message(18) + zero], 38),
        # frames that are no reply: data, another tag, another command, and fields too few, of another kind, or too many
        (("list",), [data], 20),
        (("list",), [SECOND], 20),
        (("list",), [error(1, 5)], 20),
        (("list",), [wire.packet_frame(b"L")], 20),
        (("list",), [wire.packet_frame(wire.number(3) + wire.number(0) + wire.number(18))], 20),
        (("list",), [reply(0)], 20),
        (("list",), [reply(0, wire.flag(True))], 20),
        (("list",), [reply(0, wire.number(18), wire.number(0))], 20),
        (("list",), [wire.packet_frame(wire.number(ERROR) + wire.number(0))], 20),
        (("list",), [FIRST, reply(0, wire.number(7))], 55),
        (("list",), [FIRST, SECOND, reply(2, wire.number(7))], 90),
        (("list",), [FIRST, SECOND, reply(2, info(1, 0, [5], False), info(2, 0, [5], False)[:-1])], 90),
        (("list",), [FIRST, SECOND, reply(2, info(1, 0, [5], False), b"N")], 90),
        (("kill", "1"), [FIRST, SECOND, reply(2, wire.number(0))], 90),
        (("kill", "1"), [FIRST, message(18) + SECOND, error(1, 5)], 128),
    ):
        said = answered(program, folder, answers, *words, waits=True)[0]
        if not agree((words, answers, said), (words, answers, bad(at))):
            return False
    return True


def denied(program, folder):
    """An error with the awaited tag is told by its code, whatever the code is."""
    for answers, code in (
        ([error(0, 1)], 1),
        ([message() + error(0, 1)], 1),
        ([FIRST, error(1, 2)], 2),
        ([FIRST, SECOND, error(2, 5)], 5),
        ([FIRST, SECOND, error(2, 0xFFFFFFFF)], 0xFFFFFFFF),
        ([FIRST, SECOND, error(2, 0)], 0),
    ):
        if not agree(answered(program, folder, answers, "kill", "1", waits=True)[0], refused(code)):
            return False
    return True


def gone(program, folder):
    """A server that hangs up before its reply has gone: at once, in the middle of a frame, or after messages."""
    for answers in ([], [b""], [FIRST[:1]], [FIRST[:20]], [FIRST[:-1]], [message()], [FIRST], [FIRST, SECOND], [FIRST, SECOND, THIRD[:29]]):
        if not agree((answers, answered(program, folder, answers, "kill", "1")[0]), (answers, GONE)):
            return False
    return True


def flooded(program, folder):
    """After 2^30 bytes of messages the client gives up."""
    size = 1 << 20
    flood = [message(size - 20)] * (LONGEST // size + 8)
    for before in ([], [FIRST]):
        said = answered(program, folder, [*before, flood], "list", patience=300)[0]
        if not agree(said, bad(LONGEST)):
            return False
    return True


def silent(program, folder):
    """A server that is silent, from the start or in the middle of a frame, is given up once a million receives in a row found nothing; those before the
    last bytes that came don't count. Here a receive doesn't wait (`hasty.c`)."""
    library, log = os.path.join(folder, "hasty.so"), os.path.join(folder, "log")
    source = os.path.join(os.path.dirname(os.path.realpath(__file__)), "hasty.c")
    subprocess.run(["cc", "-shared", "-fPIC", "-O2", "-o", library, source], check=True)
    environment = dict(os.environ, LD_PRELOAD=library, HASTY_LOG=log)
    for answers, since in (([b""], False), ([FIRST[:21]], False), ([FIRST], False), ([delayed(message()[:7], message()[7:])], True)):
        if not agree(answered(program, folder, answers, "list", waits=True, environment=environment)[0], SILENT):
            return False
        with open(log, encoding="ascii") as file:
            in_a_row, in_all = map(int, file.read().split())
        if not agree((in_a_row, in_all > in_a_row), (SILENCE, in_all > SILENCE)) or since and in_all == in_a_row:
            return False
    return True


def delayed(*pieces):
    """These pieces, each a while after the one before."""
    for piece in pieces:
        time.sleep(0.1)
        yield piece


# the rows of Python alone; and one with the command that it wants
ROWS = (sends, lists_inputs, bad_replies, denied, gone, flooded)
MORE = {silent: ["cc"]}
