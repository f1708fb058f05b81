#!/usr/bin/env python3
"""Reckons what `replay --ramp FRAMES` must give, over the reckoner of `replay`, and shares no code with the program.

  conformance/ramps.py FRAMES SESSION.session > SESSION.output
  conformance/ramps.py --dice NUMBER TURNS > SESSION.session      streams whose volumes change at any time, with dice

A factor that changes goes evenly from the value that it has at the horizon to the new one in FRAMES frames, rounded down at each frame; one that
is told the number that it goes to already goes on. A stream that is new to a sink starts at its factors. Each frame is mixed anew at every turn,
from the horizon on."""

import random
import sys
from dataclasses import dataclass

import reckon
from maker import make
from mixer import Sink
from recording import read_session
from throws import SINKS, taken

import output


@dataclass
class Ramp:
    """A factor that goes from `start` to `aim` from frame `first` on."""

    start: int
    aim: int
    first: int

    def value_at(self, frame, frames):
        """Its value at a frame, where a ramp takes `frames` frames."""
        return self.start + (self.aim - self.start) * min(frame - self.first, frames) // frames


class RampedSink(Sink):
    """A sink whose factors go by ramps over `frames` frames; `ramps` has those of each input, one a channel of the sink."""

    def __init__(self, number, spec, frames):
        super().__init__(number, spec)
        self.frames_of_ramp, self.ramps = frames, {}

    def factors_of(self, number, ahead):
        return [ramp.value_at(self.horizon + ahead, self.frames_of_ramp) for ramp in self.ramps[number]]

    def take(self, kind, number, more):
        super().take(kind, number, more)
        if kind in ("new", "attach"):
            self.ramps[number] = [Ramp(factor, factor, 0) for factor in self.inputs[number].factors]
        elif kind == "gone":
            del self.ramps[number]
        elif kind == "factors":
            for known in self.inputs.keys() & more.keys():
                self.ramps[known] = [self.aimed(*it) for it in zip(self.ramps[known], more[known])]

    def aimed(self, ramp, factor):
        """The ramp, or another from its value at the horizon where the factor isn't the one that it goes to."""
        return ramp if ramp.aim == factor else Ramp(ramp.value_at(self.horizon, self.frames_of_ramp), factor, self.horizon)


class Ramped(reckon.Server):
    """Plays a session on sinks whose factors go by ramps over `frames` frames."""

    def __init__(self, cookie, sinks, frames):
        self.frames_of_ramp = frames
        super().__init__(cookie, sinks)

    def sink_of(self, number, spec):
        return RampedSink(number, spec, self.frames_of_ramp)


def reckoned(session, frames):
    cookie, sinks, events, _ = read_session(session)
    server = Ramped(cookie, sinks, frames)
    for event in events[:-1]:
        server.event(event)
    return bytes(server.said) + b"\0"


# The streams of a thrown session, two on each of its sinks
STREAMS = ("s16le 1", "s16le 1", "s16le 2", "s32le 2", "u8 1", "s24le 1")
MAPS = {"1": "0", "2": "1,2"}
GREATEST = {"u8": 127, "s16le": 32_767, "s24le": 8_388_607, "s32le": 2_147_483_647}
LOUD = (0, 1, 20_000, 32_768, 46_341, 65_535, 65_536, 65_536, 80_000)
WORDS = ("data",) * 5 + ("volume",) * 5 + ("sink-volume", "mute", "sink-mute", "move")


def thrown(number, turns):
    """Six streams of steady sound and of noise on three sinks, whose volumes and mutes change at any time; some move."""
    dice = random.Random(number)
    sinks = [sink.replace(" 8000 ", " 48000 ") for sink in SINKS]
    names = [sink.split()[0] for sink in sinks]
    lines = [*(f"sink {sink}" for sink in sinks), "connect 1", "auth 1 tag 0 version 13"]
    for at, asked in enumerate(STREAMS):
        lines.append(f"create 1 {asked} 48000 map {MAPS[asked[-1]]} sink {names[at // 2]} maxlength 4000 tlength 1600 prebuf 0 minreq 40")
    for _ in range(turns):
        lines += [changed(dice, names) for _ in range(dice.randrange(5))]
        lines.append(f"turn {dice.choice(names)} {dice.randrange(40)} take 0")
    said = [f"# Thrown with the dice of {number}: six streams whose volumes change at any time, {turns} turns. Its output is conformance/ramps.py's.", ""]
    return "\n".join([*said, *lines[:3], "", *taken(lines, dice), "end", ""])


def changed(dice, names):
    """A line that writes to a stream, moves it, or changes a volume or a mute."""
    at, word, name = dice.randrange(len(STREAMS)), dice.choice(WORDS), dice.choice(names)
    channels, greatest = int(STREAMS[at][-1]), GREATEST[STREAMS[at].split()[0]]
    if word == "data":
        length, steady = dice.randrange(1, 90), dice.randrange(2)
        same = [dice.randrange(-greatest, greatest) for _ in range(channels)]
        frames = [same if steady else [dice.randrange(-greatest, greatest) for _ in range(channels)] for _ in range(length)]
        return f"data 1 stream {at} {' '.join('/'.join(map(str, frame)) for frame in frames)}"
    if word == "volume":
        return f"volume 1 input {at} volume {','.join(str(dice.choice(LOUD)) for _ in range(dice.choice((1, channels))))}"
    if word == "sink-volume":
        return f"sink-volume 1 sink {name} volume {dice.choice(LOUD)}"
    if word == "move":
        return f"move 1 input {at} sink {name}"
    return f"{word} 1 {f'input {at}' if word == 'mute' else f'sink {name}'} {dice.choice(('on', 'off', 'off'))}"


def thrown_by(words):
    """The session that the words ask for, or None where they ask for none: its own, or one of the reckoner of `replay`."""
    if len(words) == 3 and words[0] == "--dice":
        return thrown(int(words[1]), int(words[2]))
    return reckon.thrown_by(words)


def main(words):
    session = thrown_by(words)
    if session is not None:
        sys.stdout.write(session)
        return 0
    if len(words) != 2 or not words[0].isdigit():
        print(__doc__, file=sys.stderr)
        return 2
    with open(words[1], encoding="utf-8") as file:
        session = make(file.read())
    sys.stdout.write(output.show(reckoned(session, int(words[0])), read_session(session))[0])
    return 0


if __name__ == "__main__":
    sys.exit(main(sys.argv[1:]))
