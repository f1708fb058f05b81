"""Sessions that try the mixers of sinks: all that a stream can be told, thrown with dice, and as many streams as there can be, all loud."""

import random

import samples
import wire

FAR = ((1 << 63) - 1, -(1 << 61), 1 << 59)  # bytes: past the last index, before the first or far behind, and far ahead
VOLUMES = (30_000, 46_341, 65_535, 65_536, 65_536, 65_536, 82_570, 82_570, 1 << 21, 0x7FFFFFFF)
MAPS = {1: (0,), 2: (1, 2), 4: (1, 2, 0, 3)}
PLAIN = ("cork", "cork", "flush", "trigger", "prebuf", "drain", "latency", "attributes")


class Crowd:
    """The streams of two clients on three sinks, as far as what is thrown next depends on them."""

    def __init__(self, number):
        self.dice = random.Random(number)
        channels = self.dice.sample((1, 2, 4), 3)
        self.sinks = [(f"s{at}", self.dice.choice(samples.SINKS), many) for at, many in enumerate(channels)]
        self.there, self.made, self.inputs = [], {1: 0, 2: 0}, 0

    def header(self):
        for (name, code, channels), (guard, depth) in zip(self.sinks, ((10, 60), (0, 45), (40, 60))):
            positions = ",".join(map(str, MAPS[channels]))
            yield f"sink {name} {wire.format_word(code)} {channels} 48000 map {positions} guard {guard} depth {depth}"

    def lengths(self, size):
        """Attributes of up to 120 frames, some of which are repaired."""
        maxlength = self.dice.choice((self.dice.randrange(1, 121), 120, 120))
        tlength = self.dice.randrange(1, maxlength + 1)
        minreq = self.dice.randrange(1, tlength + 1)
        prebuf = self.dice.choice((0, self.dice.randrange(tlength + 2)))
        return " ".join(f"{word} {frames * size}" for word, frames in zip(("maxlength", "tlength", "prebuf", "minreq"), (maxlength, tlength, prebuf, minreq)))

    def volumes(self, channels):
        """One for all channels or one each, seldom silent."""
        return ",".join(str(self.dice.choice(VOLUMES) if self.dice.randrange(40) else 0) for _ in range(self.dice.choice((1, channels))))

    def switch(self):
        return self.dice.choice(("on", *("off",) * 5))

    def create(self):
        """A stream in any format, with its sink's positions in any order, or mono."""
        conn, (name, _, many), code = self.dice.choice((1, 2)), self.dice.choice(self.sinks), self.dice.choice(samples.STREAMS)
        channels = self.dice.choice((1, many))
        positions = self.dice.sample(MAPS[channels], channels)
        size = samples.SIZES[code] * channels
        self.there.append((conn, self.made[conn], self.inputs, size, channels))
        self.made[conn] += 1
        self.inputs += 1
        more = f"volume {self.volumes(channels)}{' corked' if self.switch() == 'on' else ''}"
        return f"create {conn} {wire.format_word(code)} {channels} 48000 map {','.join(map(str, positions))} sink {name} {self.lengths(size)} {more}"

    def data(self, conn, stream, size, consumed):
        """Frames of any values, or all near an end of their range, at the write index mostly, near what is mixed, or far off."""
        mode = self.dice.choice(("relative",) * 4 + ("absolute", "relative-end") + ("relative-on-read",) * 3)
        offset = 0 if mode == "relative" and self.dice.randrange(4) else self.dice.randrange(-30, 60)
        offset = (offset + (consumed if mode == "absolute" else 0)) * size
        if not self.dice.randrange(150):
            offset = self.dice.choice(FAR) // size * size
        count = self.dice.randrange(1, 200 if not self.dice.randrange(20) else 40) * size
        kind = self.dice.randrange(8)
        said = f"7fx{count}" if kind == 0 else f"80x{count}" if kind == 1 else self.dice.randbytes(count).hex()
        return f"data {conn} stream {stream} seek {mode} offset {offset} hex {said}"

    def plain(self, conn, stream, size):
        word = self.dice.choice(PLAIN)
        more = {"cork": f" {self.switch()}", "latency": f" time {self.dice.randrange(9)}:{self.dice.randrange(9)}"}
        return f"{word} {conn} stream {stream} {self.lengths(size)}" if word == "attributes" else f"{word} {conn} stream {stream}{more.get(word, '')}"

    def line(self, consumed):
        """What a client says next."""
        dice = self.dice
        if len(self.there) < 2 or len(self.there) < 7 and not dice.randrange(15):
            return self.create()
        conn, stream, number, size, channels = it = dice.choice(self.there)
        name, _, many = dice.choice(self.sinks)
        kind = dice.randrange(40)
        if kind == 0:
            self.there.remove(it)
            return f"delete {conn} stream {stream}"
        if kind < 4:
            return f"move {conn} input {number} sink {name}"
        if kind < 7:
            return f"volume {conn} input {number} volume {self.volumes(channels)}"
        if kind < 10:
            said = (f"sink-volume {conn} sink {name} volume {self.volumes(many)}", f"mute {conn} input {number} ", f"sink-mute {conn} sink {name} ")[kind - 7]
            return said + ("" if kind == 7 else self.switch())
        return self.plain(conn, stream, size) if kind < 18 else self.data(conn, stream, size, consumed)


def thrown_lanes(number, turns):
    """The lines of a session in which streams come, are told everything, move and leave, in turns of none, some or all frames."""
    crowd, consumed = Crowd(number), 0
    yield from crowd.header()
    yield from ("connect 1", "auth 1 tag 0 version 13", "connect 2", "auth 2 tag 0 version 13")
    for _ in range(turns):
        yield from (crowd.line(consumed) for _ in range(crowd.dice.randrange(5)))
        name = crowd.dice.choice(crowd.sinks)[0]
        frames = crowd.dice.choice((0, *(crowd.dice.randrange(16) for _ in range(9)), 45))
        consumed += frames // 3
        yield f"turn {name} {frames} take 0"


# The sample of each of a sink's streams, by its place: the first 128 over and over, and the others. The greatest and the least clip once,
# whatever the order; half of them are in balance but for a little.
LOUD = (
    ("narrow s16le 2 48000 map 1,2", 65_536, (32_767,), (32_767, -32_768)),
    ("wide s32le 1 48000 map 0", 65_536, (2_147_483_647,), (2_147_483_647, -2_147_483_648)),
    ("narrow-most s16le 2 48000 map 1,2", 1 << 21, (32_767, -32_768, 1, 0), (32_767, -32_768, 1, 0)),
    ("wide-most s32le 1 48000 map 0", 1 << 21, (2_147_483_647, -2_147_483_648, 1, 0), (2_147_483_647, -2_147_483_648, 1, 0)),
)


def loud():
    """Four sinks with 256 streams each at full scale, two of them with the greatest factor; then half of the streams leave."""
    lines = ["# 256 streams on each of four sinks, at full scale, at full volume and with the greatest factor; then 128 of each sink have left."]
    lines += [f"sink {sink} guard 0 depth 4" for sink, *_ in LOUD]
    for conn in range(1, 17):
        (sink, volume, first, others), quarter = LOUD[(conn - 1) // 4], (conn - 1) % 4
        name, code = sink.split()[:2]
        size = samples.SIZES[wire.FORMATS.index(code)]
        lines += [f"connect {conn}", f"auth {conn} tag 0 version 13"]
        for stream in range(64):
            values = first if quarter < 2 else others
            lines.append(f"create {conn} {code} 1 48000 map 0 sink {name} volume {volume} prebuf 0 tlength {100 * size} minreq {100 * size}")
            lines.append(f"data {conn} stream {stream} {values[stream % len(values)]}x8")
    names = [sink.split()[0] for sink, *_ in LOUD]
    lines += [f"turn {name} 0 take {3 * 256}" for name in names] + [f"turn {name} 2 take 0" for name in names]
    lines += [f"delete {conn} stream {stream}" for conn in range(1, 17) if (conn - 1) % 4 < 2 for stream in range(64)]
    lines += [f"turn {name} 1 take 128" for name in names] + [f"turn {name} 3 take 0" for name in names]
    return "\n".join([*lines, "end", ""])
