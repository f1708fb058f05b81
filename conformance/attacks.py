"""Sessions in which each event brings little and could cost much: what one client can send, a function each, by a count of what it sends.

They are rows of conformance/attacks at counts that play in about a tenth of a second, and rows of bench/costs.py at larger ones. `reckon.py
--attack NAME COUNT` throws one. Each reads back what it made: what waited is played, what was set is asked for."""

import random

MONO = "s16le 1 48000 map 0"
FRONT = (f"sink out {MONO} guard 0 depth 64", f"sink left {MONO} guard 0 depth 64", "connect 1", "auth 1 version 13")
STREAM = f"create 1 {MONO} prebuf 0 tlength 4000 minreq 4000"
TURN = 64  # frames of a turn, which are all that the sinks of `FRONT` mix ahead
EVERYTHING = 767  # a subscriber's mask of all facilities
LETTERS = "abcdefghijklmnopqrstuvwxyz0123456789"


def loud(at):
    """A sample that isn't that of its neighbours."""
    return at % 30_000 + 1


def played(sink, frames):
    """Turns in which a sink of `FRONT` plays these frames."""
    yield from [f"turn {sink} {TURN} take 0"] * (frames // TURN)
    yield f"turn {sink} {frames % TURN} take 0"


def at_index(at, sound):
    """A write of the first stream from this frame on."""
    return f"data 1 stream 0 seek absolute offset {2 * at} {sound}"


# frames that wait


def moved(count):
    """Writes of one frame wait while their stream moves to another sink, and follow it there."""
    yield from (*FRONT, STREAM, "turn out 0 take 2", "move 1 input 0 sink left")
    yield from (f"data 1 stream 0 {loud(at)}" for at in range(count))
    # the stream, the factors of those on its new sink, and what waited
    yield from ("turn out 0 take 1", "collect out take 1", f"turn left 0 take {2 + count}")
    yield from played("left", count + TURN)


def back_and_forth(count):
    """A stream with a thousand writes that wait moves from sink to sink."""
    yield from (*FRONT, STREAM)
    yield from (f"data 1 stream 0 {loud(at)}" for at in range(1_000))
    yield "turn out 0 take 1002"
    for at in range(count):
        old, new = ("out", "left") if at % 2 == 0 else ("left", "out")
        # from the second move on, the new sink has the factors of those that the last one left behind there
        yield from (f"move 1 input 0 sink {new}", f"turn {old} 0 take 1", f"collect {old} take 1", f"turn {new} 0 take {2 + (at > 0)}")
    yield from played("left" if count % 2 else "out", 1_000 + TURN)


def at_places(places):
    """Writes of one frame at these indices, in this order, which all lie at two or later; then they are played."""
    yield from (*FRONT, STREAM)
    yield from (at_index(place, loud(at)) for at, place in enumerate(places))
    yield f"turn out 0 take {2 + len(places)}"
    yield from played("out", max(places) + 2)


def falling(count):
    """Writes of one frame at every second index, the last index first."""
    return at_places([2 * (count - at) for at in range(count)])


def shuffled(count):
    """Writes of one frame at every second index, in any order."""
    places = [2 * (at + 1) for at in range(count)]
    random.Random(count).shuffle(places)
    return at_places(places)


def split_up(count):
    """A long write in which single frames are written anew, in any order, so that it comes apart."""
    places = [2 * (at + 1) for at in range(count)]
    random.Random(count).shuffle(places)
    yield from (*FRONT, STREAM, f"data 1 stream 0 7x{2 * count + 2}")
    yield from (at_index(place, loud(at)) for at, place in enumerate(places))
    yield f"turn out 0 take {3 + count}"
    yield from played("out", 2 * count + TURN)


def single_frames(count):
    """Writes of one frame, one after the other, wait until they are played."""
    yield from (*FRONT, STREAM)
    yield from (f"data 1 stream 0 {loud(at)}" for at in range(count))
    yield f"turn out 0 take {2 + count}"
    yield from played("out", count + TURN)


def flushed(count):
    """A frame is written and flushed away again, over and over."""
    yield from (*FRONT, STREAM)
    for at in range(count):
        yield from (f"data 1 stream 0 {loud(at)}", "flush 1 stream 0")
    yield from ("data 1 stream 0 5x9", f"turn out 0 take {3 + 2 * count}")
    yield from played("out", TURN)


def overflowing(count):
    """Writes past the most frames that may wait, each of which is told."""
    yield from (*FRONT, f"create 1 {MONO} prebuf 0 maxlength 128 tlength 128 minreq 128", "data 1 stream 0 1x64")
    yield from (f"data 1 stream 0 {loud(at)}" for at in range(count))
    yield from (f"turn out 0 take {3 + count}", f"collect out take {count}")
    yield from played("out", TURN)


def nowhere(count):
    """Frames of streams that aren't there."""
    yield from (*FRONT, STREAM)
    yield from (f"data 1 stream {1 + at} as s16le 1 48000 {loud(at)}" for at in range(count))
    yield from ("turn out 0 take 2", "server-info 1")


# property lists


def keys(first, past):
    return [f"key{at:06}" for at in range(first, past)]


def with_keys(names):
    yield from (*FRONT, "update-client 1 mode 2 " + " ".join(f"{key}=a" for key in names))


def folded(a, b):
    """The two halves of a product of 128 bits, joined."""
    return (a * b & (1 << 64) - 1) ^ (a * b >> 64)


def places_of(front):
    """Each key that begins so and has one letter more, with the hash that a table of the standard library has of it, whose seed is fixed."""
    factor = 0x9E3779B97F4A7C15
    state = folded(0x243F6A8885A308D3 ^ (len(front) + 1), factor ^ 16)
    for letter in front.encode():
        state = folded(state ^ letter * 0x10101, factor ^ 2)
    for letter in LETTERS:
        found = folded(state ^ ord(letter) * 0x10101, factor ^ 2)
        yield front + letter, (found ^ found >> 32) & 0xFFFFFFFF


def side_by_side(count):
    """Keys that such a table would put into one 32nd of its groups of nine, one after the other."""
    groups = 1
    while 9 * groups < count:
        groups *= 2
    found, at = [], 0
    while len(found) < count:
        front = "".join(LETTERS[at // 36**digit % 36] for digit in range(5))
        found += [key for key, place in places_of(front) if place % groups <= groups // 32]
        at += 1
    return found[:count]


def one_hash(count):
    """Keys that are one for a table whose seed is known."""
    names = side_by_side(count)
    yield from with_keys(names)
    yield from (f"remove-client 1 keys {' '.join(names[: count // 2])}", "client-info 1 client 0")


def removed_keys(count):
    """Half of a client's keys are removed by one command."""
    yield from with_keys(keys(0, 2 * count))
    yield from (f"remove-client 1 keys {' '.join(keys(0, count))}", "client-info 1 client 0")


def one_key_of_many(count):
    """A key of a long list is set and another removed and set again, once for each hundred keys."""
    yield from with_keys(keys(0, count))
    for _ in range(count // 100):
        yield from ("update-client 1 mode 2 key000000=b", "remove-client 1 keys key000001", "update-client 1 mode 1 key000001=c")
    yield "client-info 1 client 0"


def renamed(count):
    """A stream with as many properties as there are hundreds of names is named anew."""
    pairs = " ".join(f"{key}=a" for key in keys(0, count))
    yield from (*FRONT, f"{STREAM} {pairs}")
    yield from (f"stream-name 1 stream 0 name name{at}" for at in range(count // 100))
    yield "input-info 1 input 0"


# streams and connections


def come_and_gone(count):
    """Streams are made and deleted while their sink makes no turn."""
    yield from FRONT
    for at in range(count):
        yield from (STREAM, f"delete 1 stream {at}")
    # each was told of, with its factors, and left; now the sink is told the factors of the others once for each
    yield from (f"turn out 0 take {3 * count}", f"collect out take {count}", f"turn out 0 take {count}", "input-infos 1")


def connected(count):
    """Clients connect, most of them past the most that there can be, and are named again once they have gone."""
    yield from FRONT
    yield from (f"connect {at}" for at in range(2, count + 2))
    yield from (f"close {at}" for at in range(count + 1, 1, -1))
    yield from ("connect 2", "auth 2 version 13", "client-infos 2")


def visited(count):
    """Clients come, are let in and go."""
    yield from FRONT
    for at in range(2, count + 2):
        yield from (f"connect {at}", f"auth {at} version 13", f"close {at}")
    yield "client-infos 1"


def declared(count):
    """Clients that announce the longest frame that there is, and send a byte of it."""
    yield from FRONT
    for at in range(2, count + 2):
        yield from (f"connect {at}", f"bytes {at} hex 01000000 ffffffff 00000000 00000000 00000000 4c")
    yield "server-info 1"


def in_pieces(count):
    """A long packet comes byte by byte."""
    yield from (*FRONT, "split 1", f"update-client 1 mode 2 a:{'62' * count}", "split none", "client-info 1 client 0")


# requests


def drained(count):
    """Requests that are all answered once the stream has played all."""
    yield from (*FRONT, STREAM)
    yield from ["drain 1 stream 0"] * count
    yield from (f"turn out 0 take {2 + count}", f"collect out take {count}", "server-info 1")


def asked(count):
    """Requests for how much waits, which one turn answers."""
    yield from (*FRONT, STREAM, "data 1 stream 0 9x500", "turn out 0 take 3")
    yield from (f"latency 1 stream 0 time {at}:0" for at in range(count))
    yield from ("turn out 9 take 0", f"turn out 0 take {count}", "collect out take 1", f"collect out take {count}")


def in_vain(count):
    """Requests that wait as their stream is deleted."""
    yield from (*FRONT, STREAM)
    yield from ["drain 1 stream 0", "latency 1 stream 0"] * count
    yield from ("delete 1 stream 0", f"turn out 0 take {3 + 2 * count}")


def requested(count):
    """A stream that asks for a frame in each turn of one frame."""
    yield from (*FRONT, f"create 1 {MONO} prebuf 0 maxlength 400 tlength 400 minreq 2", "data 1 stream 0 3x200", "turn out 0 take 3")
    yield from ["turn out 1 take 0"] * count
    yield from ("collect out take 3", "data 1 stream 0 4x9", "turn out 9 take 1")


# many streams


def with_streams(count):
    """Four sinks with streams in turn."""
    yield from (f"sink s{at} {MONO} guard 0 depth 64" for at in range(4))
    yield from FRONT[2:]
    yield from (f"create 1 {MONO} index {at % 4} prebuf 0 tlength 4000 minreq 4000" for at in range(count))


def listeners(count):
    """Eight clients that listen to everything hear of 40 volumes of as many streams as there are."""
    yield from with_streams(count)
    for conn in range(2, 10):
        yield from (f"connect {conn}", f"auth {conn} version 13", f"subscribe {conn} mask {EVERYTHING}")
    # below what the others have, so that nothing else changes
    yield from (f"volume 1 input {at * 7 % count} volume {60_000 - at}" for at in range(40))
    yield "connect 10"


def lists(count):
    """Twenty lists of all streams."""
    yield from with_streams(count)
    yield from ("input-infos 1",) * 20


def sink_volumes(count):
    """The volume of a sink with fifty streams is set while it makes no turn."""
    yield from FRONT
    yield from (STREAM,) * 50
    yield from (f"sink-volume 1 sink out volume {30_000 + at % 30_000}" for at in range(count))
    yield from ("data 1 stream 0 9000x64", f"turn out 0 take {101 + count}", "sink-info 1 sink out")
    yield from played("out", TURN)


# frames that are mixed


def silence(count, channels=8):
    """Streams on a sink of many channels whose one frame lies at the end of what is mixed, with silence before it. The depth is 256
    frames for each stream."""
    depth, positions = min(256 * count, 65_536), ",".join(map(str, range(1, channels + 1)))
    kind = f"s16le {channels} 48000 map {positions}"
    yield from (f"sink out {kind} guard 0 depth {depth}", *FRONT[2:])
    yield from (STREAM.replace(MONO, kind) for _ in range(count))
    yield from (f"data 1 stream {at} seek absolute offset {2 * channels * (depth - 1)} {at + 1}" for at in range(count))
    yield from (f"turn out 0 take {3 * count}", f"turn out {depth} take 0")


def deep(count, depth):
    """A stream that sounds as far as its sink mixes ahead."""
    yield from (f"sink out {MONO} guard 0 depth {depth}", *FRONT[2:], STREAM, f"data 1 stream 0 tone 440 amplitude 20000 frames {depth}", "turn out 0 take 3")


def unchanged(count):
    """Messages that change nothing, each with a turn; the depth is 16 frames for each."""
    depth = min(16 * count, 65_536)
    yield from deep(count, depth)
    for at in range(count):
        yield ("trigger 1 stream 0", "attributes 1 stream 0 prebuf 0 tlength 4000 minreq 4000", "cork 1 stream 0 off", "volume 1 input 0 volume 65536")[at % 4]
        yield "turn out 0 take 1"
    yield f"turn out {depth} take 0"


def rewound(count):
    """A frame at the horizon is written anew, each time with a turn; the depth is 16 frames for each."""
    depth = min(16 * count, 65_536)
    yield from deep(count, depth)
    for at in range(count):
        yield from (at_index(at % 8, loud(at)), "turn out 0 take 1")
    yield f"turn out {depth} take 0"


ATTACKS = {
    attack.__name__: attack
    for attack in (
        moved, back_and_forth, falling, shuffled, split_up, single_frames, flushed, overflowing, nowhere,
        one_hash, removed_keys, one_key_of_many, renamed,
        come_and_gone, connected, visited, declared, in_pieces,
        drained, asked, in_vain, requested,
        listeners, lists, sink_volumes,
        silence, unchanged, rewound,
    )
}


def thrown(name, count):
    """The text of the session of this name and count."""
    return "\n".join([*ATTACKS[name](count), "end", ""])
