"""What goes over a connection, as bytes and as values: items, frames and samples."""

from functools import lru_cache

from words import Wrong

FORMATS = [
    "u8", "alaw", "ulaw", "s16le", "s16be", "float32le", "float32be",
    "s32le", "s32be", "s24le", "s24be", "s24-32le", "s24-32be",
]
SIZES = [1, 1, 1, 2, 2, 4, 4, 4, 4, 3, 3, 4, 4]
FLOATS = (5, 6)
CONTROL = 0xFFFFFFFF  # the channel of packets
SEEKS = ["relative", "absolute", "relative-on-read", "relative-end"]


def format_word(code):
    return FORMATS[code] if code < len(FORMATS) else str(code)


def frame_size(spec):
    """The bytes of a frame of sound: `spec` is (format, channels, rate)."""
    return SIZES[spec[0]] * spec[1] if spec[0] < len(SIZES) else 0


# Samples


def sample_of(code, data):
    """The number of one sample: from 0 to 255 for ALAW and ULAW, else signed, and 0 is silence."""
    if code == 0:
        return data[0] - 128
    if code in (1, 2):
        return data[0]
    order = "little" if code in (3, 7, 9, 11) else "big"
    if code in (11, 12):
        data = data[:3] if code == 11 else data[1:]
    return int.from_bytes(data, order, signed=True)


def bounds(code):
    """The least and the greatest number of a sample."""
    if code in (1, 2):
        return 0, 255
    bits = 24 if code in (11, 12) else 8 * SIZES[code]
    return -(1 << bits - 1), (1 << bits - 1) - 1


def sample_bytes(code, value):
    """The bytes of one sample; the upper byte of 24 bits in 32 is 0."""
    least, most = bounds(code)
    if not least <= value <= most:
        raise Wrong(f"a sample of {FORMATS[code]} is from {least} to {most}, and {value} isn't")
    if code == 0:
        return bytes([value + 128])
    if code in (1, 2):
        return bytes([value])
    order = "little" if code in (3, 7, 9, 11) else "big"
    if code == 11:
        return value.to_bytes(3, order, signed=True) + b"\0"
    if code == 12:
        return b"\0" + value.to_bytes(3, order, signed=True)
    return value.to_bytes(SIZES[code], order, signed=True)


@lru_cache(1 << 16)
def frame_word(spec, frame):
    """The word of one frame of sound: one number where all channels have the same."""
    width = SIZES[spec[0]]
    values = [sample_of(spec[0], frame[at : at + width]) for at in range(0, len(frame), width)]
    return str(values[0]) if len(set(values)) == 1 else "/".join(map(str, values))


def samples_words(spec, data):
    """Words for frames of sound: `1000x100` is 100 frames of 1000, `1/-1` a frame of two channels."""
    size, said, at = frame_size(spec), [], 0
    while at < len(data):
        frame, end = data[at : at + size], at + size
        while data[end : end + size] == frame:
            end += size
        count = (end - at) // size
        said.append(frame_word(spec, frame) if count == 1 else f"{frame_word(spec, frame)}x{count}")
        at = end
    return said


# Frames


def frame_of(channel, offset, flags, payload):
    """One frame of a connection: its descriptor of 20 bytes and what it carries."""
    words = [len(payload), channel, offset >> 32 & 0xFFFFFFFF, offset & 0xFFFFFFFF, flags]
    return b"".join(word.to_bytes(4, "big") for word in words) + payload


def packet_frame(packet):
    return frame_of(CONTROL, 0, 0, packet)


class Descriptor:
    """The five words before a frame's payload."""

    def __init__(self, data):
        words = [int.from_bytes(data[at : at + 4], "big") for at in range(0, 20, 4)]
        self.length, self.channel, high, low, self.flags = words
        self.offset = (high << 32 | low) - (1 << 64 if high >> 31 else 0)

    def fault(self):
        """Why the server ends a connection at this descriptor, or None."""
        if self.length == 0:
            return "zero length"
        if self.length > 16_777_216:
            return "too long"
        if self.channel == CONTROL:
            return "packet flags" if self.flags else None
        if self.flags & 0xFF000000:
            return "shared memory"
        return "seek mode" if self.flags & 0xFF > 3 else None


class Stream:
    """Where the bytes of one connection stand: how much of a frame has come, or that it is broken."""

    def __init__(self):
        self.head = b""
        self.left = 0
        self.fault = None

    def at_frame(self):
        return not (self.head or self.left or self.fault)

    def feed(self, data):
        at = 0
        while at < len(data) and not self.fault:
            if self.left:
                step = min(self.left, len(data) - at)
                self.left -= step
                at += step
                continue
            step = min(20 - len(self.head), len(data) - at)
            self.head += data[at : at + step]
            at += step
            if len(self.head) == 20:
                descriptor = Descriptor(self.head)
                self.fault = descriptor.fault()
                self.left, self.head = descriptor.length, b""


# Items


class Unread(Exception):
    """An item doesn't stand where it is wanted."""


class Items:
    """The items of a packet, read one after the other."""

    def __init__(self, packet):
        self.packet = packet
        self.at = 0

    def take(self, count):
        if self.at + count > len(self.packet):
            raise Unread
        self.at += count
        return self.packet[self.at - count : self.at]

    def tag(self, *tags):
        tag = self.take(1)
        if tag not in tags:
            raise Unread
        return tag

    def left(self):
        return len(self.packet) - self.at

    def whole(self, size):
        return int.from_bytes(self.take(size), "big")

    def number(self):
        self.tag(b"L")
        return self.whole(4)

    def wide(self):
        self.tag(b"R")
        return self.whole(8)

    def signed(self):
        self.tag(b"r")
        return int.from_bytes(self.take(8), "big", signed=True)

    def usec(self):
        self.tag(b"U")
        return self.whole(8)

    def flag(self):
        return self.tag(b"1", b"0") == b"1"

    def time(self):
        self.tag(b"T")
        return self.whole(4), self.whole(4)

    def text(self):
        if self.tag(b"t", b"N") == b"N":
            return None
        end = self.packet.find(b"\0", self.at)
        if end < 0:
            raise Unread
        text = self.take(end - self.at)
        self.take(1)
        return text

    def arbitrary(self):
        self.tag(b"x")
        return self.take(self.whole(4))

    def spec(self):
        self.tag(b"a")
        return self.whole(1), self.whole(1), self.whole(4)

    def map(self):
        self.tag(b"m")
        return list(self.take(self.whole(1)))

    def volume(self):
        self.tag(b"v")
        return [self.whole(4) for _ in range(self.whole(1))]

    def base(self):
        """One volume."""
        self.tag(b"V")
        return self.whole(4)

    def texts(self):
        found = []
        while (text := self.text()) is not None:
            found.append(text)
        return found

    def properties(self):
        self.tag(b"P")
        found = []
        while (key := self.text()) is not None:
            length, value = self.number(), self.arbitrary()
            if length != len(value):
                raise Unread
            found.append((key, value))
        return found


def number(value):
    return b"L" + value.to_bytes(4, "big")


def flag(value):
    return b"1" if value else b"0"


def time(value):
    return b"T" + value[0].to_bytes(4, "big") + value[1].to_bytes(4, "big")


def text(value):
    return b"N" if value is None else b"t" + value + b"\0"


def arbitrary(value):
    return b"x" + len(value).to_bytes(4, "big") + value


def spec(value):
    return b"a" + bytes(value[:2]) + value[2].to_bytes(4, "big")


def channel_map(value):
    return b"m" + bytes([len(value)]) + bytes(value)


def volume(value):
    return b"v" + bytes([len(value)]) + b"".join(v.to_bytes(4, "big") for v in value)


def texts(values):
    return b"".join(map(text, values)) + b"N"


def properties(pairs):
    entries = [text(key) + number(len(value)) + arbitrary(value) for key, value in pairs]
    return b"P" + b"".join(entries) + b"N"
