"""The record streams of an output: what each of them has for a format, and the sound that it was sent."""

import wire
from replies import SHAPES, reply_fields
from words import hex_words

CREATE = "create-record"


def channel_of(frame):
    """The stream of a frame that carries data as the server sends it, or None."""
    if len(frame) <= 20:
        return None
    channel = wire.Descriptor(frame).channel
    return channel if channel != wire.CONTROL and frame == wire.frame_of(channel, 0, 0, frame[20:]) else None


def created(packet, commands):
    """The fields of a reply that tells of a new record stream, or None. `commands` are those of its tag, where they are known."""
    items = wire.Items(packet)
    for command, version in commands or SHAPES:
        if command != CREATE:
            continue
        items.at = 0
        try:
            number, _ = items.number(), items.number()
            fields = {name: read(items) for name, read in reply_fields(command, version)}
        except wire.Unread:
            continue
        if number == 2 and not items.left():
            return fields
    return None


class Recorders:
    """The record streams that were made so far, each by its connection and its number. A connection that comes again makes them anew."""

    def __init__(self, asked):
        self.asked = asked
        self.specs = {}

    def saw(self, conn, frame):
        """Keeps what a sent frame tells of a record stream, and answers that stream's number where it is a new one."""
        if frame != wire.packet_frame(frame[20:]):
            return None
        packet = frame[20:]
        fields = created(packet, self.asked.of(conn)(int.from_bytes(packet[6:10], "big")))
        if fields is None:
            return None
        self.specs[conn, fields["stream"]] = fields["spec"]
        return fields["stream"]

    def data_words(self, conn, frame, sound_words):
        """The words of a frame of data, its sound by its record stream's format where that is known; None for any other frame."""
        stream = channel_of(frame)
        if stream is None:
            return None
        spec, sound = self.specs.get((conn, stream)), frame[20:]
        size = spec and spec[0] not in wire.FLOATS and wire.frame_size(spec)
        said = sound_words(spec, sound) if size and len(sound) % size == 0 else ["hex", *hex_words(sound)]
        return ["data", "stream", str(stream), *said]


def recorded(records, asked, conn, stream):
    """The format of a record stream and the sound that it was sent, as far as these records go; no format where they tell of none. Where
    the connection came again and made one of that number again, they are of the last one."""
    recorders, spec, sound = Recorders(asked), None, bytearray()
    for record in records:
        if record[:2] != (1, conn):
            continue
        if recorders.saw(conn, record[2]) == stream:
            spec, sound = recorders.specs[conn, stream], bytearray()
        elif spec and channel_of(record[2]) == stream:
            sound += record[2][20:]
    return spec, bytes(sound)
