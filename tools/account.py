"""What happened in a run, from the session and its output: the events in order, each with what the server said to it."""

import wire
from course import Sink, Stream, Write
from packets import Spoken, fields_at
from recorders import channel_of
from records import Records, whole_frames
from replies import LISTS, MESSAGES, reply_fields
from words import NONE, Wrong, number_word, quoted

CONTROLS = ("cork", "flush", "trigger", "prebuf", "drain", "latency", "attributes")
OTHER = "it isn't the output of this session"
ENDINGS = {1: "a protocol fault", 2: "a limit", 3: "a kill", 4: "want of memory"}


def segments(data, sinks):
    """What was sent before each turn that played or stopped its sink, with that turn, and what ended the output early, or None. The sound
    that record streams were sent isn't drawn, and so left out."""
    records, found, fault = Records(data, sinks), [([], None)], None
    try:
        for record in records:
            if record[0] in (3, 4):
                found[-1] = found[-1][0], record
                found.append(([], None))
            elif record[0] == 2 or channel_of(record[2]) is None:
                found[-1][0].append(record)
    except Wrong as wrong:
        fault = str(wrong)
    if not records.ended and fault is None:
        fault = "it has no end byte: the run ended before its session's end, and what is drawn is what happened until then"
    return found, fault


def fields_of(items, fields):
    return {name: read(items) for name, read in fields}


def read_reply(word, version, items):
    """The fields of a reply, or None where it isn't one to this command at this version."""
    if word in LISTS:
        return {}
    try:
        fields = fields_of(items, reply_fields(word, version))
    except wire.Unread:
        return None
    return None if items.left() else fields


class Run:
    """A run: its sinks, its streams in the order in which they were made, and what ended its output early, or None."""

    def __init__(self, session, data):
        self.cookie, specs, events, _ = session
        self.sinks = [Sink(*it) for it in enumerate(specs)]
        self.streams, self.owned, self.inputs = [], {}, {}
        self.bytes, self.names, self.late, self.spoken = {}, {}, set(), Spoken()
        self.fallback = self.sinks[0]
        self.segments, self.fault = segments(data, specs)
        self.segment = self.place = 0
        for event in events[:-1]:
            if not self.event(event):
                break
        self.hear_rest()

    def event(self, event):
        """Plays an event, and answers whether the output goes on."""
        kind, which = event[:2]
        if kind in (5, 6, 7) and which >= len(self.sinks):
            return False
        if kind == 7:
            self.sinks[which].fails = True
        elif kind == 5:
            return self.turn(self.sinks[which], *event[2:])
        if kind == 6:
            self.sinks[which].collect()
            self.hear_notices(event[3])
        elif kind == 1:
            self.bytes[which], self.names[which] = bytearray(), {}
            self.spoken.connect(which)
            self.late = {key for key in self.late if key[0] != which}
        elif kind == 2:
            held = self.bytes.setdefault(which, bytearray())
            held += event[2]
            for descriptor, payload in whole_frames(held):
                self.frame(which, descriptor, payload)
        elif kind in (3, 4):
            self.leave(which, "its client hung up" if kind == 3 else "its client was cut")
        return True

    def turn(self, sink, frames, taken):
        stops = sink.fails and not sink.stopped
        if stops or frames and not sink.stopped:
            self.hear_rest()
            record = self.segments[self.segment][1]
            if record is None:
                return False
            if record[:2] != (4 if stops else 3, sink.number) or not stops and record[2] != frames:
                raise Wrong(OTHER)
            sink.sound += b"" if stops else record[3]
            self.segment, self.place = self.segment + 1, 0
        sink.turn(frames, taken)
        if stops:
            if record[2] != sink.filled:
                raise Wrong(OTHER)
            sink.marks.append((sink.now(), "stopped", f"its device stopped, {sink.filled} frames filled"))
        return True

    # what the server said

    def head(self, record):
        """The command and the tag of what was sent, and its items after them."""
        items = wire.Items(record[2][20:])
        try:
            return items.number(), items.number(), items
        except wire.Unread:
            return None, None, items

    def hear_rest(self):
        for record in self.segments[self.segment][0][self.place :]:
            self.hear(record)
        self.place = len(self.segments[self.segment][0])

    def hear_notices(self, most):
        """What is sent next as notices are collected: each gives a message, a late reply or nothing."""
        records = self.segments[self.segment][0]
        while most and self.place < len(records) and self.is_told(records[self.place]):
            self.hear(records[self.place])
            self.place, most = self.place + 1, most - 1

    def is_told(self, record):
        number, tag, _ = self.head(record) if record[0] == 1 else (None, None, None)
        return number in MESSAGES and tag == NONE or number == 2 and (record[1], tag) in self.late

    def reply(self, conn, word, tag):
        """The fields of the reply to a command, or None where it is an error or there is none; what came before is heard."""
        records = self.segments[self.segment][0]
        for place in range(self.place, len(records)):
            number, told, items = self.head(records[place]) if records[place][:2] == (1, conn) else (None, None, None)
            fields = read_reply(word, self.spoken.of(conn), items) if number == 2 and told == tag else None
            if fields is not None or (number == 0 and told == tag):
                for record in records[self.place : place]:
                    self.hear(record)
                self.place = place + 1
                return fields
        return None

    def hear(self, record):
        """A message, or the end of a connection."""
        if record[0] == 2:
            return self.leave(record[1], f"its connection ended by {ENDINGS.get(record[2], 'the server')}")
        number, tag, items = self.head(record)
        if number not in MESSAGES or tag != NONE:
            return None
        word, fields = MESSAGES[number]
        try:
            said = fields_of(items, fields)
        except wire.Unread:
            return None
        stream = self.owned.get((record[1], said.get("stream")))
        if stream is None:
            return None
        if word == "moved":
            self.arrive(stream, self.sink_at(said["index"]))
        elif word == "killed":
            self.end(stream, "killed")
        elif word in ("started", "underflow", "overflow"):
            self.mark(stream, word, word)
        return None

    # what clients sent

    def frame(self, conn, descriptor, payload):
        if descriptor.channel == wire.CONTROL:
            read = self.spoken.hear(conn, payload, self.cookie)
            if read:
                self.command(conn, *read)
            return
        stream, seek = self.owned.get((conn, descriptor.channel)), descriptor.flags & 0xFF
        if stream is None or len(payload) % stream.size or descriptor.offset % stream.size:
            return
        write = Write(stream.sink.now(), len(payload) // stream.size)
        stream.writes.append(write)
        self.post(stream, "write", write, seek, descriptor.offset // stream.size)

    def command(self, conn, word, tag, values):
        asked = dict(zip((name for name, _, _ in fields_at(word, self.spoken.of(conn))), values))
        if word in ("drain", "latency"):  # their replies come later, if a stream is there
            self.late.add((conn, tag))
            return self.control(conn, word, asked, None)
        fields = self.reply(conn, word, tag)
        if fields is None:
            return None
        if word in CONTROLS:
            return self.control(conn, word, asked, fields)
        return getattr(self, "do_" + word.replace("-", "_"), lambda *_: None)(conn, asked, fields)

    def control(self, conn, word, asked, fields):
        stream = self.owned.get((conn, asked["stream"]))
        if stream is None:
            return
        more = fields if word == "attributes" else asked[None] if word == "cork" else None
        self.post(stream, "query" if word == "latency" else word, more)
        if word == "cork":
            self.cork(stream, more)
        elif word != "latency":
            self.mark(stream, word, word)

    def cork(self, stream, on):
        now, is_corked = stream.sink.now(), bool(stream.corks) and stream.corks[-1][1] is None
        self.mark(stream, "cork" if on else "uncork", "cork on" if on else "cork off")
        if on and not is_corked:
            stream.corks.append([now, None])
        elif not on and is_corked:
            stream.corks[-1][1] = now

    def do_name(self, conn, asked, fields):
        self.names[conn] = dict(asked[None])

    def do_update_client(self, conn, asked, fields):
        self.names.setdefault(conn, {}).update(asked[None])

    def do_create(self, conn, asked, fields):
        given = dict(asked[None])
        stream = Stream(conn, fields["stream"], self.sink_at(fields["index"]), fields, asked["corked"])
        names = self.names.get(conn, {}).get(b"application.name"), given.get(b"media.name")
        stream.names = [quoted(name.rstrip(b"\0")) for name in names if name]
        self.streams.append(stream)
        self.owned[conn, stream.number] = self.inputs[fields["input"]] = stream
        stream.sink.post("new", stream)
        stream.sink.post("factors")

    def do_delete(self, conn, asked, fields):
        stream = self.owned.get((conn, asked["stream"]))
        if stream:
            self.end(stream, "deleted")

    def do_volume(self, conn, asked, fields):
        self.change(self.inputs.get(asked["input"]), "volume", ",".join(map(number_word, asked["volume"])))

    def do_mute(self, conn, asked, fields):
        self.change(self.inputs.get(asked["input"]), "mute", "on" if asked[None] else "off")

    def do_sink_volume(self, conn, asked, fields):
        self.change_sink(self.called(asked), "volume", ",".join(map(number_word, asked["volume"])))

    def do_sink_mute(self, conn, asked, fields):
        self.change_sink(self.called(asked), "mute", "on" if asked[None] else "off")

    def do_default_sink(self, conn, asked, fields):
        self.fallback = self.called({"index": NONE, **asked})

    def do_move(self, conn, asked, fields):
        stream, sink = self.inputs.get(asked["input"]), self.called(asked)
        if stream and sink is not stream.sink:
            stream.sink.post("gone", stream)
            stream.moving = sink

    # what becomes of sinks and streams

    def sink_at(self, index):
        if index >= len(self.sinks):
            raise Wrong(OTHER)
        return self.sinks[index]

    def called(self, asked):
        """The sink of an index or a name."""
        named = [sink for sink in self.sinks if asked["index"] == sink.number or asked["sink"] == sink.spec.name]
        return named[0] if named else self.fallback

    def change(self, stream, word, value):
        if stream:
            self.mark(stream, word, f"{word} {value}")
            stream.sink.post("factors")

    def change_sink(self, sink, word, value):
        sink.marks.append((sink.now(), word, f"{word} {value}"))
        sink.post("factors")

    def mark(self, stream, word, said):
        stream.marks.append((stream.sink.now(), word, said))

    def post(self, stream, kind, *more):
        if stream.moving:
            stream.delayed.append((kind, stream, more))
        else:
            stream.sink.post(kind, stream, *more)

    def arrive(self, stream, sink):
        """Its old sink gave it up, and the new one is told all that waited."""
        old, stream.sink, stream.moving = stream.sink, sink, None
        sink.post("attach", stream)
        old.post("factors")
        sink.post("factors")
        sink.waiting += stream.delayed
        stream.delayed = []
        self.mark(stream, "moved", f"moved to {quoted(sink.spec.name)}")

    def end(self, stream, said):
        """It takes no command any more, and leaves its sink."""
        del self.owned[stream.conn, stream.number]
        stream.ended = stream.sink.now()
        self.mark(stream, "ended", said)
        self.inputs = {number: it for number, it in self.inputs.items() if it is not stream}
        if stream.moving is None:
            stream.sink.post("gone", stream)

    def leave(self, conn, said):
        for key in sorted(key for key in self.owned if key[0] == conn):
            self.end(self.owned[key], said)
