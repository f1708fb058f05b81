"""A client that speaks the protocol by itself, for conformance/live: in a version from 13 to 18, with stereo sound in S16LE."""

import socket

import wire

REPLY, CREATE, AUTH, SET_NAME, DRAIN, SERVER_INFO, CLIENT_INFO = 2, 3, 8, 9, 12, 20, 27
VERSION = 18
LATER = (14, 14, 15, 15, 15, 17, 18)  # the versions from which on CREATE has a further bool at its end
UNSET = 0xFFFFFFFF  # no index, or a size that the server chooses
RATE = 48_000


def packet(command, tag, *fields):
    """A command in its frame."""
    return wire.packet_frame(b"".join((wire.number(command), wire.number(tag), *fields)))


def is_listened_at(path):
    """Whether somebody listens at a socket. A connection that asked would count as a client."""
    with open("/proc/net/unix", encoding="utf-8") as file:
        fields = [line.split() for line in file]
    return any(it[7:] == [path] and int(it[3], 16) & 0x10000 for it in fields[1:])


class Client:
    """A connection to the server at a socket. A call that waits longer than `patience` seconds raises TimeoutError."""

    def __init__(self, path, patience, version=VERSION):
        self.version = version
        self.socket = socket.socket(socket.AF_UNIX)
        self.socket.settimeout(patience)
        self.socket.connect(path)
        self.came = b""
        self.tag = 0

    def __enter__(self):
        return self

    def __exit__(self, *fault):
        self.socket.close()

    def send(self, data):
        self.socket.sendall(data)

    def take(self, count):
        """The next `count` bytes; None where the server has hung up before."""
        while len(self.came) < count:
            more = self.socket.recv(65_536)
            if not more:
                return None
            self.came += more
        taken, self.came = self.came[:count], self.came[count:]
        return taken

    def next_packet(self):
        """The command, the tag and the fields of the next packet; None where the server has hung up."""
        descriptor = self.take(20)
        body = descriptor and self.take(wire.Descriptor(descriptor).length)
        if body is None:
            return None
        items = wire.Items(body)
        return items.number(), items.number(), body[10:]

    def ask(self, command, *fields):
        """The fields of the reply to a command. What else comes meanwhile is passed over."""
        tag, self.tag = self.tag, self.tag + 1
        self.send(packet(command, tag, *fields))
        while (came := self.next_packet()) is not None:
            if came[1] == tag and came[0] == REPLY:
                return wire.Items(came[2])
            if came[1] == tag:
                raise ConnectionRefusedError(f"command {command} is refused")
        raise ConnectionResetError(f"command {command} has no reply")

    def enter(self, cookie):
        """Authenticates, and answers the version that the server speaks."""
        return self.ask(AUTH, wire.number(self.version), wire.arbitrary(cookie)).number()

    def create(self, sink, length):
        """A new stream on a sink, that plays from its first frame on once `length` bytes are there: its index, and that of its input."""
        # each has a number of its own: those of one number, PulseAudio plays in step, on one sink
        sizes = [wire.number(UNSET), wire.flag(False), *map(wire.number, (length, length, UNSET, self.tag))]
        switches = [wire.flag(False)] * 9
        kind = [wire.spec((3, 2, RATE)), wire.channel_map([1, 2]), wire.number(UNSET), wire.text(sink.encode())]
        later = [wire.flag(False) for since in LATER if since <= self.version]
        came = self.ask(CREATE, *kind, *sizes, wire.volume([0x10000] * 2), *switches, wire.properties([]), *later)
        return came.number(), came.number()

    def play(self, sink, sound):
        """Plays a sound on a sink, from its first frame on once all of it is there, and waits until it was played."""
        stream, _ = self.create(sink, len(sound))
        self.send(wire.frame_of(stream, 0, 0, sound))
        self.ask(DRAIN, wire.number(stream))
