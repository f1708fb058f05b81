"""Sessions with as many streams as there can be, on a sink and in all."""

import wire


def full():
    """16 sinks with 64 streams each, four for each of 16 clients: as many as there can be in all."""
    formats = [wire.format_word(code) for code in (3, 4, 7, 8, 9, 10, 11, 12, 0)]
    lines = ["# 16 sinks with 64 streams each. No sink takes another stream, though each has had 64 and not 256, until one of them all has ended."]
    lines += [f"sink s{at} {formats[at % 9]} {1 + at % 2} 48000 map {'1,2' if at % 2 else '0'} guard 0 depth {4 + at}" for at in range(16)]
    create = "create {} tag {} s16le 1 48000 map 0 index {} prebuf 0 tlength 400 minreq 400"
    for conn in range(1, 17):
        lines += [f"connect {conn}", f"auth {conn} tag 0 version 13"]
        lines += [create.format(conn, stream + 1, (conn + stream) % 16) for stream in range(64)]
    lines += [create.format(1, tag, sink) for tag, sink in ((65, 0), (66, 15), (67, 16))]
    lines += ["create 1 tag 68 s16le 1 44100 map 0 index 0 prebuf 0", "create 1 tag 69 s16le 0 48000 map 0 index 0 prebuf 0"]
    lines += ["delete 1 tag 70 stream 0", create.format(2, 65, 9), create.format(3, 65, 9)]
    lines += [f"data {conn} stream {stream} {8 * (conn + stream)}x2" for conn in range(1, 17) for stream in range(64) if conn > 1 or stream]
    # a new stream, its factors and its data; the one that has ended is told of too, and the last one has no data
    lines += [f"turn s{at} 0 take {3 * 64 + {1: 0, 9: 2}.get(at, 0)}" for at in range(16)]
    lines += [f"turn s{at} 2 take 0" for at in range(16)]
    lines += [f"collect s{at} take {64}" for at in range(16)]
    lines += [f"close {conn}" for conn in range(1, 17)]
    lines += [f"turn s{at} 2 take {63 + {1: 1, 9: 2}.get(at, 1)}" for at in range(16)]
    return "\n".join([*lines, "end", ""])


def crowded():
    """A sink with 256 streams, and three on another sink that would move to it."""
    lines = ["# A sink of 256 streams takes no other; where one of them ends, one that moves to it takes the place at once, before it is there."]
    lines += ["sink out s16le 1 48000 map 0 guard 0 depth 4", "sink full s16le 1 48000 map 0 guard 0 depth 4"]
    create = "create {} tag {} s16le 1 48000 map 0 index {} prebuf 0 tlength 400 minreq 400"
    for conn in range(1, 5):
        lines += [f"connect {conn}", f"auth {conn} tag 0 version 13"] + [create.format(conn, stream + 1, 1) for stream in range(64)]
    lines += ["connect 5", "auth 5 tag 0 version 13"] + [create.format(5, tag, 0) for tag in (1, 2, 3)]
    lines += ["move 5 tag 4 input 256 sink full", "delete 1 tag 65 stream 0", "move 5 tag 5 input 256 sink full", "move 5 tag 6 input 257 sink full"]
    lines += [create.format(1, 66, 1), "delete 5 tag 7 stream 0", "move 5 tag 8 input 257 sink full", "data 5 stream 1 7x4"]
    lines += ["turn out 0 take 8", "collect out take 2", "turn out 0 take 2", f"turn full 0 take {2 * 256 + 1 + 3}", "turn full 4 take 0"]
    return "\n".join([*lines, "end", ""])
