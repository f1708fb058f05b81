"""Reads the items of a packet by the rules of docs, and tells the first fault: its code, and the offset of its byte in the packet."""

NUMBER, FLAG, TEXT, SPEC, MAP, PROPERTIES = "number", "flag", "text", "spec", "map", "properties"
WRONG_TAG, SHORT, BAD_VALUE, LEFT = 6, 7, 8, 9
MOST_CHANNELS, LONGEST_VALUE = 32, 65_536


class Fault(Exception):
    """A code, and the offset of a byte in the packet."""


class Reader:
    def __init__(self, packet):
        self.packet, self.at = packet, 0

    def bytes(self, count):
        """The next `count` bytes; where the packet ends before, the fault stands at its end."""
        if self.at + count > len(self.packet):
            raise Fault(SHORT, len(self.packet))
        self.at += count
        return self.packet[self.at - count : self.at]

    def whole(self, count):
        return int.from_bytes(self.bytes(count), "big")

    def tag(self, *tags):
        tag = self.bytes(1)
        if tag not in tags:
            raise Fault(WRONG_TAG, self.at - 1)
        return tag

    def number(self):
        self.tag(b"L")
        return self.whole(4)

    def flag(self):
        return self.tag(b"1", b"0") == b"1"

    def text(self):
        if self.tag(b"t", b"N") == b"N":
            return None
        end = self.packet.find(b"\0", self.at)
        return self.bytes(len(self.packet) + 1 if end < 0 else end + 1 - self.at)[:-1]

    def spec(self):
        """It is whole before its channels are looked at."""
        start = self.at
        self.tag(b"a")
        spec = self.whole(1), self.whole(1), self.whole(4)
        if spec[1] > MOST_CHANNELS:
            raise Fault(BAD_VALUE, start)
        return spec

    def map(self):
        """Its count is looked at before its positions are there."""
        start = self.at
        self.tag(b"m")
        count = self.whole(1)
        if count > MOST_CHANNELS:
            raise Fault(BAD_VALUE, start)
        return list(self.bytes(count))

    def properties(self):
        self.tag(b"P")
        found = {}
        while True:
            start = self.at
            key = self.text()
            if key is None:
                return found
            if not key or not all(1 <= byte <= 0x7F for byte in key):
                raise Fault(BAD_VALUE, start)
            found[key] = self.value()

    def value(self):
        """A length, and bytes of that length, both looked at before the bytes are there."""
        length, start = self.number(), self.at
        self.tag(b"x")
        if self.whole(4) != length or length > LONGEST_VALUE:
            raise Fault(BAD_VALUE, start)
        return self.bytes(length)


def read(packet, kinds, ends=True):
    """The items of these kinds and None, or what was read of them and the first fault. The packet ends after them, unless it needn't."""
    reader, found = Reader(packet), []
    try:
        for kind in kinds:
            found.append(getattr(reader, kind)())
        if ends and reader.at < len(packet):
            raise Fault(LEFT, reader.at)
    except Fault as fault:
        return found, fault.args
    return found, None


def number_of(packet):
    """The number of a packet's command, or None where it has none."""
    found, _ = read(packet, (NUMBER,), ends=False)
    return found[0] if found else None
