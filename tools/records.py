"""The records of an output one by one, and the frames that clients sent in the session that was replayed."""

import wire
from packets import Spoken
from recording import Place
from words import Wrong


def whole_frames(data):
    """Takes the whole frames from the front of what a client sent: the descriptor and the payload of each."""
    while len(data) >= 20:
        descriptor = wire.Descriptor(data[:20])
        end = 20 + descriptor.length
        if descriptor.fault() or end > len(data):
            return
        payload = bytes(data[20:end])
        del data[:end]
        yield descriptor, payload


class Asked:
    """The commands of each connection by their tags, with the version that it spoke, from the session that was replayed."""

    def __init__(self, cookie, events):
        self.commands = {}
        held, spoken = {}, Spoken()
        for event in events:
            if event[0] == 1:
                held[event[1]] = bytearray()
                spoken.connect(event[1])
            elif event[0] == 2:
                data = held.setdefault(event[1], bytearray())
                data += event[2]
                for descriptor, payload in whole_frames(data):
                    if descriptor.channel == wire.CONTROL:
                        self.note(event[1], spoken.hear(event[1], payload, cookie), spoken.of(event[1]))

    def note(self, conn, read, version):
        if read:
            commands, command = self.commands.setdefault((conn, read[1]), []), (read[0], version)
            commands += [] if command in commands else [command]

    def of(self, conn):
        return lambda tag: self.commands.get((conn, tag), [])


class Records:
    """An output's records, one after the other."""

    def __init__(self, data, sinks):
        self.place = Place(data)
        self.sinks = sinks
        self.ended = False

    def __iter__(self):
        try:
            while self.place.at < len(self.place.data):
                start = self.place.at
                record = self.record(start)
                if record is None:
                    self.end()
                    return
                yield record
        except Wrong as wrong:
            if "truncated" not in str(wrong):
                raise
            raise Wrong(f"the output ends within the record that begins at {start}") from None

    def end(self):
        self.ended = True
        if self.place.at < len(self.place.data):
            raise Wrong(f"bytes follow the end byte, from {self.place.at} on")

    def record(self, start):
        """(kind, connection or sink, fields ..) of the record that begins here, or None at the end byte."""
        place, kind = self.place, self.place.number(1)
        if kind == 0:
            return None
        if kind == 1:
            conn = place.number()
            return 1, conn, place.take(place.number())
        if kind == 2:
            return 2, place.number(), place.number(1), place.number(1), place.number(8)
        if kind not in (3, 4):
            raise Wrong(f"no record begins with {kind}, at {start}")
        sink, frames = place.number(1), place.number(4 if kind == 3 else 8)
        if self.sinks is None and kind == 3:
            raise Wrong(f"sound was played at {start}: say the session that was replayed, with --session")
        if self.sinks is not None and sink >= len(self.sinks):
            raise Wrong(f"the session has no sink {sink}, at {start}")
        return (4, sink, frames) if kind == 4 else (3, sink, frames, place.take(frames * wire.frame_size(self.sinks[sink].spec)))
