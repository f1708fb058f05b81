"""A server that plays a session: its clients, what they send, what its sinks tell of their streams, and what is sent."""

import infos
import samples
import strict
import wire
from handlers import CONTROLS, Handlers, eight, usec
from mixer import Sink
from packets import COMMANDS, NEWEST, OLDEST, RECORDERS, SAMPLERS, read_packet
from words import NONE

RECORDER_NUMBERS = [COMMANDS[word][0] for word in RECORDERS]
SAMPLER_NUMBERS = [COMMANDS[word][0] for word in SAMPLERS]
OF_MODES = RECORDER_NUMBERS + SAMPLER_NUMBERS


class Client:
    def __init__(self, number):
        self.number = number
        self.bytes = bytearray()
        self.gone = 0  # bytes that were read
        self.known = self.ended = False
        self.version = OLDEST
        self.streams = {}
        self.made = 0
        self.properties = {}
        self.mask = 0  # the facilities whose changes it is told


class Server(Handlers):
    """Plays a session; `said` is the output."""

    def __init__(self, cookie, sinks):
        self.cookie, self.sinks = cookie, [self.sink_of(*it) for it in enumerate(sinks)]
        self.fallback = self.sinks[0]  # the default sink
        self.clients, self.inputs = {}, {}
        self.waiting = []  # (input, command, tag, time), in the order in which they were asked
        self.client_count = self.input_count = 0
        self.said = bytearray()
        self.shown = None  # all infos after the last step, where somebody listens

    def sink_of(self, number, spec):
        return Sink(number, spec)

    def send(self, conn, command, tag, fields=b""):
        frame = wire.packet_frame(wire.number(command) + wire.number(tag) + fields)
        self.said += b"\1" + conn.to_bytes(4, "big") + len(frame).to_bytes(4, "big") + frame

    def error(self, conn, tag, code):
        self.send(conn, 0, tag, wire.number(code))

    def end(self, conn, reason, fault=0, at=0):
        """The server ends a connection, which stays named."""
        if not self.clients[conn].ended:
            self.clients[conn].ended = True
            self.said += b"\2" + conn.to_bytes(4, "big") + bytes([reason, fault]) + at.to_bytes(8, "big")
            self.leave(conn)

    def leave(self, conn):
        for number in sorted(self.clients[conn].streams.values()):
            self.drop(number)
        self.clients[conn].streams = {}

    def drop(self, number):
        """An input ends; what waited of it."""
        stream = self.inputs[number]
        stream.leaving, stream.delayed = True, []
        if stream.moving is None:
            stream.sink.waiting.append(("gone", number, None))
        waited = [it for it in self.waiting if it[0] == number]
        self.waiting = [it for it in self.waiting if it[0] != number]
        return waited

    def regroup(self, sink):
        """The sink is told the factors of all inputs on it that neither end nor move away."""
        there = [number for number, stream in sorted(self.inputs.items()) if stream.sink is sink and not (stream.leaving or stream.moving)]
        sink.waiting.append(("factors", None, sink.group.factors(*there)))

    def post(self, kind, number, more):
        """An input is told something: its sink, or the next one once it is there."""
        stream = self.inputs[number]
        (stream.delayed if stream.moving else stream.sink.waiting).append((kind, number, more))

    def arrive(self, number, stream):
        """Its old sink has given up an input that moves."""
        old, new = stream.sink, stream.moving
        member = old.group.members[number]
        old.group.detach(number)
        feed = samples.plan(stream.positions, list(new.spec.positions), stream.no_remap, stream.no_remix)
        new.group.join(number, member, feed)
        stream.sink, stream.moving = new, None
        new.waiting.append(("attach", number, (stream, feed, new.group.factors(number)[number])))
        self.regroup(old)
        self.regroup(new)
        new.waiting += stream.delayed
        stream.delayed = []
        told = wire.number(stream.number) + wire.number(new.number) + wire.text(new.spec.name) + wire.flag(False)
        told += b"".join(wire.number(stream.size * frames) for frames in stream.told)
        self.send(stream.owner, 78, NONE, told + self.latency(new))

    def infos(self):
        """The info of each sink, input and client, and of the server, by facility and index."""
        shown = {(0, sink.number): infos.sink_info(NEWEST, sink.number, sink.spec, sink.group) for sink in self.sinks}
        shown.update({(2, number): self.input_info(number) for number in self.inputs_there()})
        shown.update({(5, number): infos.client_info(client) for number, client in self.known_clients().items()})
        return {**shown, (7, NONE): infos.server_info(NEWEST, self.fallback.spec)}

    def announce(self):
        """After a step, those who listen are told of each info that is new, that differs and that is gone."""
        listeners = {conn: client.mask for conn, client in self.clients.items() if client.mask and not client.ended}
        before, after = self.shown, self.infos() if listeners else None
        self.shown = after
        if before is None or after is None:
            return
        for facility, index in sorted(before.keys() | after.keys()):
            old, new = before.get((facility, index)), after.get((facility, index))
            kind = 0 if old is None else 0x20 if new is None else 0x10
            for conn, mask in listeners.items():
                if old != new and mask >> facility & 1:
                    self.send(conn, 66, NONE, wire.number(kind + facility) + wire.number(index))

    def answer(self, number, command, tag):
        """The first request of a kind and a tag that waits of an input waits no more."""
        it = next(it for it in self.waiting if it[:3] == (number, command, tag))
        self.waiting.remove(it)
        return it

    def event(self, event):
        self.play(event)
        self.announce()

    def play(self, event):
        kind = event[0]
        if kind == 1:
            there = sum(not client.ended for client in self.clients.values())
            self.clients[event[1]] = Client(self.client_count)
            if there >= 64:
                self.end(event[1], 2)
            else:
                self.client_count += 1
        elif kind == 2 and not self.clients[event[1]].ended:
            self.hear(event[1], event[2])
        elif kind == 3:
            if not self.clients[event[1]].ended:
                self.leave(event[1])
            del self.clients[event[1]]
        elif kind == 4:
            self.end(event[1], 4)
        elif kind == 7:
            self.sinks[event[1]].fails = True
        elif kind == 5:
            sink = self.sinks[event[1]]
            stops = sink.fails and not sink.stopped
            played = sink.turn(event[2], event[3])
            if stops:
                self.said += bytes([4, event[1]]) + sink.filled.to_bytes(8, "big")
            elif played:
                self.said += bytes([3, event[1]]) + len(played).to_bytes(4, "big") + b"".join(played)
        elif kind == 6:
            for _ in range(event[3]):
                self.notice(*self.sinks[event[1]].notices.pop(0))
                self.announce()

    def notice(self, number, word, frames):
        stream = self.inputs[number]
        if word == "detached" and stream.moving and not stream.leaving:
            self.arrive(number, stream)
        elif word == "detached":
            del self.inputs[number]
            stream.sink.group.detach(number)
            self.regroup(stream.sink)
        elif stream.leaving:
            pass
        elif word == "drained":
            self.answer(number, "drain", frames)
            self.send(stream.owner, 2, frames)
        elif word == "latency":
            tag, buffered, plays, then = frames
            time = self.answer(number, "latency", tag)[3]
            size, rate = stream.size, stream.sink.spec.spec[2]
            fields = usec(buffered * 1_000_000 // rate) + usec(0) + wire.flag(plays) + wire.time(time) * 2
            fields += eight(b"r", then.write * size) + eight(b"r", then.read * size)
            self.send(stream.owner, 2, tag, fields + eight(b"R", then.quiet * then.run * size) + eight(b"R", (not then.quiet) * then.run * size))
        else:
            code = {"request": 61, "overflow": 62, "underflow": 63, "started": 86}[word]
            more = wire.number(stream.size * frames) if word == "request" else b""
            self.send(stream.owner, code, NONE, wire.number(stream.number) + more)

    def hear(self, conn, data):
        client = self.clients[conn]
        client.bytes += data
        while len(client.bytes) >= 20 and not client.ended:
            head = wire.Descriptor(client.bytes)
            fault = head.fault()
            if fault:
                codes = {"zero length": 1, "too long": 2, "packet flags": 3, "shared memory": 4, "seek mode": 5}
                return self.end(conn, 1, codes[fault], client.gone + (0 if codes[fault] < 3 else 16))
            if len(client.bytes) < 20 + head.length:
                return None
            payload = bytes(client.bytes[20 : 20 + head.length])
            del client.bytes[: 20 + head.length]
            client.gone += 20 + head.length
            self.packet(conn, payload) if head.channel == wire.CONTROL else self.data(conn, head, payload)
            self.announce()

    def data(self, conn, head, payload):
        number = self.clients[conn].streams.get(head.channel)
        if number is None:
            return
        stream = self.inputs[number]
        if len(payload) % stream.size or head.offset % stream.size:
            return
        frames = samples.frames_of(stream.spec[0], stream.spec[1], payload)
        self.post("write", number, (head.flags & 0xFF, head.offset // stream.size, frames))

    def packet(self, conn, packet):
        client = self.clients[conn]
        if strict.number_of(packet) in OF_MODES:
            return self.of_a_mode(conn, packet)
        read = read_packet(packet, client.version)
        if read is None:
            over = read_packet(packet[:-1], client.version) is not None
            return self.end(conn, 1, 9 if over else 7, client.gone - over)
        command, tag = wire.Items(packet), None
        command, tag = command.number(), int.from_bytes(packet[6:10], "big")
        if not client.known and command != 8:
            return self.error(conn, tag, 1)
        word, values = read[0], read[2]
        if word in CONTROLS:
            return self.do_stream(conn, tag, word, values)
        return getattr(self, "do_" + word.replace("-", "_"), self.nothing)(conn, tag, values)

    def of_a_mode(self, conn, packet):
        """A command of record streams or of samples, which only a mode of its own knows: its fields aren't read."""
        client = self.clients[conn]
        head, fault = strict.read(packet, (strict.NUMBER, strict.NUMBER), ends=False)
        if fault:
            return self.end(conn, 1, fault[0], client.gone - len(packet) + fault[1])
        return self.error(conn, head[1], 19 if client.known else 1)
