"""Sessions that are thrown with dice: streams that are written, told everything, moved and mixed with others, in turns of any length."""

import random

import lanes
import samples
import wire
from handlers import CONTROLS
from maker import make
from recording import read_session
from server import Server
from words import line_of


def thrown(number, turns):
    """Three streams that are written anywhere near what is played, soft and loud, in turns of any length."""
    dice = random.Random(number)
    lines = [f"# Thrown with the dice of {number}: three streams, {turns} turns. Its output is conformance/reckon.py's.", ""]
    lines += ["sink out s16le 1 48000 map 0 guard 10 depth 100", "", "connect 1", "auth 1 tag 0 version 13"]
    lines += [f"create 1 tag {tag} s16le 1 48000 map 0 maxlength 1000 tlength 400 prebuf 0 minreq 2" for tag in (1, 2, 3)]
    lines.append("turn out 0 take 6")
    consumed = waiting = 0
    for _ in range(turns):
        for _ in range(dice.randrange(3)):
            loud = dice.choice((64, 1))
            values = " ".join(str(dice.randrange(-32768, 32768) // loud) for _ in range(dice.randrange(1, 61)))
            seek = dice.randrange(4)
            offset = consumed + dice.randrange(-30, 90) if seek == 1 else dice.randrange(-20, 40)
            mode = ("relative", "absolute", "relative-on-read", "relative-end")[seek]
            lines.append(f"data 1 stream {dice.randrange(3)} seek {mode} offset {2 * offset} {values}")
            waiting += 1
        frames, take = dice.randrange(45), dice.randrange(waiting + 1)
        waiting -= take
        consumed += frames
        lines.append(f"turn out {frames} take {take}")
    return "\n".join([*lines, "end", ""])


def thrown_life(number, turns):
    """Three streams that wait for prebuf frames, are corked, flushed, drained, asked and told new attributes, in turns of any length."""
    dice = random.Random(number)
    lines = ["sink out s16le 1 48000 map 0 guard 10 depth 100", "connect 1", "auth 1 tag 0 version 13"]
    create = "create 1 tag {} s16le 1 48000 map 0 maxlength {} tlength 400 prebuf {} minreq {}{}"
    lines += [create.format(*stream) for stream in ((1, 1000, 40, 2, ""), (2, 300, 0, 20, ""), (3, 1000, 100, 2, " corked"))]
    lines.append("turn out 0 take 6")
    waiting, tag = 0, 3
    for _ in range(turns):
        for _ in range(dice.randrange(4)):
            stream, waiting = dice.randrange(3), waiting + 1
            word = dice.choice(("data",) * 8 + CONTROLS)
            if word == "data":
                values = " ".join(str(dice.randrange(-1000, 1000)) for _ in range(dice.randrange(1, 90)))
                lines.append(f"data 1 stream {stream} {values}")
                continue
            # one of two follows the other closely, so that two may wait under one tag
            tag += dice.randrange(2)
            more = {"latency": f" time {dice.randrange(9)}:{dice.randrange(9)}", "cork": dice.choice((" on", " off", " off"))}
            if word == "attributes":
                asked = dice.choice((100, 400, 1000)), dice.choice((100, 400)), dice.choice((0, 40, 100)), dice.choice((2, 50))
                more[word] = " maxlength {} tlength {} prebuf {} minreq {}".format(*asked)
            lines.append(f"{word} 1 tag {tag} stream {stream}{more.get(word, '')}")
        take = dice.randrange(waiting + 1)
        waiting -= take
        lines.append(f"turn out {dice.randrange(45)} take {take}")
    said = [f"# Thrown with the dice of {number}: the life of three streams in {turns} turns. Its output is conformance/reckon.py's.", "", lines[0], ""]
    return "\n".join([*said, *collected(lines, dice), "end", ""])


def thrown_formats(number, word):
    """Streams of every format with one, two and swapped channels, each heard with half of the one before it, to a sink of a format."""
    dice = random.Random(number)
    lines = [f"# Thrown with the dice of {number}: streams of every format to a sink of {word}. Its output is conformance/reckon.py's.", ""]
    lines += [f"sink out {word} 2 48000 map 1,2 guard 0 depth 200", "", "connect 1", "auth 1 tag 0 version 13"]
    specs = [(code, *more) for code in samples.STREAMS for more in ((1, "0"), (2, "1,2"), (2, "2,1"))]
    for code, channels, positions in specs:
        lines.append(f"create 1 {wire.format_word(code)} {channels} 48000 map {positions} tlength 64 prebuf 0 minreq 32")
    for stream, (code, channels, _) in enumerate(specs):
        size = channels * samples.SIZES[code]
        lines.append(f"data 1 stream {stream} offset {4 * stream * size} hex {dice.randbytes(8 * size).hex()}")
    lines += [f"turn out 0 take {3 * len(specs)}", f"turn out {4 * len(specs) + 6} take 0"]
    return "".join(line_of(line.split()) if line.startswith("data") else line + "\n" for line in [*lines, "end"])


SINKS = ("out s16le 1 48000 map 0 guard 10 depth 100", "wide s32be 2 48000 map 1,2 guard 0 depth 60", "low u8 1 8000 map 0 guard 40 depth 40")
PLACED = (  # a stream's owner, its sink, and how it is asked for
    (1, 0, "s16le 1 48000 map 0"), (1, 1, "s16le 2 48000 map 2,1 sink wide"), (1, 2, "u8 1 8000 map 0 index 2"),
    (2, 0, "s16le 1 48000 map 0 index 0"), (2, 1, "s16le 1 48000 map 0 index 1"), (2, 2, "s16le 1 8000 map 0 sink low"),
)


def thrown_sinks(number, turns):
    """Two clients with a stream each on each of three sinks, which take turns of any length in any order."""
    dice = random.Random(number)
    lines = [*(f"sink {sink}" for sink in SINKS), "connect 1", "auth 1 tag 0 version 13", "connect 2", "auth 2 tag 0 version 13"]
    lines += [f"create {conn} {asked} maxlength 1000 tlength 400 prebuf {dice.choice((0, 40))} minreq 20" for conn, _, asked in PLACED]
    waiting = [4, 4, 4]
    for _ in range(turns):
        for _ in range(dice.randrange(5)):
            at = dice.randrange(len(PLACED))
            conn, sink, asked = PLACED[at]
            waiting[sink] += 1
            word = dice.choice(("data",) * 8 + ("cork", "flush", "drain", "volume", "sink-volume"))
            if word == "data":
                most = 128 if asked.startswith("u8") else 1000
                each = ["/".join(str(dice.randrange(-most, most)) for _ in range(int(asked.split()[1]))) for _ in range(dice.randrange(1, 60))]
                lines.append(f"data {conn} stream {at % 3} {' '.join(each)}")
            elif word == "volume":
                lines.append(f"volume {conn} input {at} volume {dice.choice((0, 32768, 65536, 80000))}")
            elif word == "sink-volume":
                named = (f"index {sink}", f"sink {SINKS[sink].split()[0]}")
                lines.append(f"sink-volume {conn} {dice.choice(named)} volume {dice.choice((32768, 65536))}")
            else:
                lines.append(f"{word} {conn} stream {at % 3}{dice.choice((' on', ' off', ' off')) if word == 'cork' else ''}")
        sink = dice.randrange(3)
        take = dice.randrange(waiting[sink] + 1)
        waiting[sink] -= take
        frames = dice.randrange(40) if f"turn {SINKS[sink].split()[0]} " in "\n".join(lines) else 0
        lines.append(f"turn {SINKS[sink].split()[0]} {frames} take {take}")
    said = [f"# Thrown with the dice of {number}: six streams on three sinks, {turns} turns. Its output is conformance/reckon.py's.", ""]
    return "\n".join([*said, *lines[:3], "", *collected(lines, dice), "end", ""])


def thrown_moves(number, turns):
    """Six streams of two clients that move between three sinks, while they play, wait, are corked and asked, and change their volumes."""
    dice = random.Random(number)
    words = ("data",) * 8 + ("move",) * 2 + ("cork", "flush", "drain", "latency", "volume", "sink-volume", "mute", "input-info")
    lines = list(moving_lines(dice, turns, words))
    said = [f"# Thrown with the dice of {number}: six streams that move between three sinks, {turns} turns. Its output is conformance/reckon.py's.", ""]
    return "\n".join([*said, *lines[:3], "", *taken(lines, dice), "end", ""])


def thrown_stops(number, turns):
    """The same with all commands of a stream's life, while the device of one sink stops, and later that of a second. Each is told to stop twice."""
    dice, form = random.Random(number), ["form 2"]
    words = ("data",) * 8 + ("move",) * 2 + CONTROLS + ("volume", "sink-volume", "mute", "input-info", "sink-info")
    lines = list(moving_lines(dice, turns, words))
    places = [at for at, line in enumerate(lines) if line.startswith("turn")]
    first, second = dice.sample([sink.split()[0] for sink in SINKS], 2)
    for part, name in ((10, second), (7, second), (5, first), (3, first)):
        lines.insert(places[len(places) * part // 12], f"stop {name}")
    said = [f"# Thrown with the dice of {number}: six streams that move between three sinks, two of which stop, {turns} turns. Its output is conformance/reckon.py's.", ""]
    return "\n".join([*said, *form, *lines[:3], "", *taken(lines, dice, form), "end", ""])


def moving_lines(dice, turns, words):
    """Two clients with a stream each on each of three sinks of one rate, then turns with any of these commands before each."""
    sinks = [sink.replace(" 8000 ", " 48000 ") for sink in SINKS]
    names = [sink.split()[0] for sink in sinks]
    lines = [*(f"sink {sink}" for sink in sinks), "connect 1", "auth 1 tag 0 version 13", "connect 2", "auth 2 tag 0 version 13"]
    asked = [(conn, text.replace(" 8000 ", " 48000 ")) for conn, _, text in PLACED]
    lines += [f"create {conn} {text} maxlength 1000 tlength 400 prebuf {dice.choice((0, 40))} minreq 20" for conn, text in asked]
    for _ in range(turns):
        for _ in range(dice.randrange(5)):
            at, word, sink = dice.randrange(len(asked)), dice.choice(words), dice.choice(names)
            conn, text = asked[at]
            if word == "data":
                most = 128 if text.startswith("u8") else 1000
                each = ["/".join(str(dice.randrange(-most, most)) for _ in range(int(text.split()[1]))) for _ in range(dice.randrange(1, 60))]
                lines.append(f"data {conn} stream {at % 3} {' '.join(each)}")
                continue
            more = {
                "cork": f" {dice.choice(('on', 'off', 'off'))}", "latency": f" time {dice.randrange(9)}:{dice.randrange(9)}",
                "volume": f" volume {dice.choice((0, 32768, 65536, 80000))}", "sink-volume": f" volume {dice.choice((32768, 65536))}",
                "mute": f" {dice.choice(('on', 'off'))}", "move": f" sink {sink}",
            }
            if word == "attributes":
                frames = dice.choice((100, 400, 1000)), dice.choice((100, 400)), dice.choice((0, 40, 100)), dice.choice((2, 50))
                more[word] = " maxlength {} tlength {} prebuf {} minreq {}".format(*frames)
            what = f"sink {sink}" if word in ("sink-volume", "sink-info") else f"input {at}" if word in ("move", "volume", "mute", "input-info") else f"stream {at % 3}"
            lines.append(f"{word} {conn} {what}{more.get(word, '')}")
        lines.append(f"turn {dice.choice(names)} {dice.randrange(40)} take 0")
    return lines


def thrown_volumes(number, count, version=13):
    """Calls of every kind on the volumes of a sink and its streams, which come and go, with all infos after every tenth."""
    dice = random.Random(number)
    lines = [f"# Thrown with the dice of {number}: {count} calls on the volumes of a sink and its streams. Its output is conformance/reckon.py's.", ""]
    lines += ["sink out s16le 2 48000 map 1,2 guard 10 depth 100", "", "connect 1", f"auth 1 tag 0 version {version}"]
    maps, there, made = {1: ("0",), 2: ("1,2", "2,1")}, {}, 0
    volumes = lambda channels: ",".join(str(dice.choice((0, 1, 100, 32768, 65535, 65536, 65537, 80000, 0x7FFFFFFF, dice.randrange(1 << 17)))) for _ in range(channels))
    for call in range(count):
        kind = dice.choice(("create", "delete", "sink-volume", "sink-mute") + ("volume",) * 4 + ("mute",))
        if kind == "create" or not there:
            channels = dice.choice((1, 2))
            lines.append(f"create 1 s16le {channels} 48000 map {dice.choice(maps[channels])} volume {volumes(dice.choice((1, channels)))}{dice.choice(('', '', ' muted'))}")
            lines[-1] += dice.choice(("", " volume_set off", " relative_volume", " volume_set off relative_volume")) if version == 18 else ""
            there[made], made = channels, made + 1
        elif kind == "delete" and len(there) > 2:
            lines.append(f"delete 1 stream {(gone := dice.choice(sorted(there)))}")
            del there[gone]
        elif kind == "sink-volume":
            lines.append(f"sink-volume 1 sink out volume {volumes(dice.choice((1, 2)))}")
        elif kind == "sink-mute":
            lines.append(f"sink-mute 1 sink out {dice.choice(('on', 'off'))}")
        else:
            at = dice.choice(sorted(there))
            more = f"volume {volumes(dice.choice((1, there[at])))}" if kind == "volume" else dice.choice(("on", "off"))
            lines.append(f"{'volume' if kind == 'volume' else 'mute'} 1 input {at} {more}")
        if call % 10 == 9:
            lines += ["sink-infos 1", "input-infos 1", f"turn out 0 take 0"]
    head = lines.index("") + 2
    return "\n".join([*lines[: head + 1], *taken(lines[head - 1 : head] + lines[head + 1 :], dice), "end", ""])


def thrown_lanes(number, turns):
    said = [f"# Thrown with the dice of {number}: streams on three sinks that are told everything, {turns} turns. Its output is conformance/reckon.py's.", ""]
    lines = list(lanes.thrown_lanes(number, turns))
    return "\n".join([*said, *lines[:3], "", *taken(lines, random.Random(number)), "end", ""])


def taken(lines, dice, front=(), server_of=Server):
    """The events of these lines, which follow others that make none; each turn takes some of the messages that wait and plays no more
    frames than are there, and some notices are collected after it."""
    cookie, sinks, events, _ = read_session(make("\n".join([*front, *lines, "end", ""])))
    server = server_of(cookie, sinks)
    for line, event in zip(lines[len(sinks) :], events):
        if event[0] != 5:
            yield line
            server.event(event)
            continue
        sink = server.sinks[event[1]]
        frames = min(event[2], sink.filled - sink.consumed)
        name, take = sink.spec.name.decode(), dice.randrange(len(sink.waiting) + 1)
        server.event((5, event[1], frames, take))
        yield f"turn {name} {frames} take {take}"
        count = dice.randrange(len(sink.notices) + 1)
        server.event((6, event[1], None, count))
        yield f"collect {name} take {count}"


def collected(lines, dice):
    """The events of these lines, with some of the notices collected after each turn."""
    cookie, sinks, events, _ = read_session(make("\n".join([*lines, "end", ""])))
    server = Server(cookie, sinks)
    for line, event in zip(lines[len(sinks) :], events):
        yield line
        server.event(event)
        if event[0] == 5:
            count = dice.randrange(len(server.sinks[event[1]].notices) + 1)
            server.event((6, event[1], None, count))
            yield f"collect {sinks[event[1]].name.decode()} take {count}"
