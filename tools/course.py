"""The course of sinks and streams in a run: what is played, written and held, frame by frame.

Times are seconds of a sink from its first frame on. A stream's frames are counted as stretches of indices: which ones were
written, not what they hold."""

from collections import deque

import wire


def with_stretch(stretches, first, last):
    """The stretches with one more; those that touch become one."""
    if first >= last:
        return stretches
    touched = [it for it in stretches if it[0] <= last and first <= it[1]]
    apart = [it for it in stretches if it not in touched]
    return sorted([*apart, (min([first, *(it[0] for it in touched)]), max([last, *(it[1] for it in touched)]))])


def within(stretches, first, last):
    """The parts of the stretches that lie from one index up to another."""
    return [(max(a, first), min(b, last)) for a, b in stretches if max(a, first) < min(b, last)]


class Write:
    """A write: when it was sent; once its sink took it, from when to when it stands, until when that is too late, and whether it is lost."""

    def __init__(self, sent, frames):
        self.sent, self.frames = sent, frames
        self.stands, self.late, self.lost = None, None, False

    def blocks(self):
        """What becomes of its frames, from when to when."""
        if self.stands is None:
            return []
        first, last = self.stands
        if self.lost:
            return [("lost", first, last)]
        late = first if self.late is None else self.late
        return [it for it in (("late", first, late), ("written", late, last)) if it[1] < it[2]]


class Stream:
    """A stream of a client. `held` has the indices that were written and that the sink hasn't passed."""

    def __init__(self, conn, number, sink, fields, corked):
        self.conn, self.number, self.sink = conn, number, sink
        self.home, self.names, self.spec = sink, [], fields["spec"]
        self.size = max(wire.frame_size(self.spec), 1)
        self.set_lengths(fields)
        self.hold = self.prebuf > 0
        self.read = self.write = 0
        self.held = []
        self.corked, self.moving, self.ended = corked, None, None
        self.delayed = []  # what it is told on its way to another sink
        self.began = sink.now()
        self.corks = [[self.began, None]] if corked else []
        self.marks, self.writes, self.played = [], [], []
        self.levels = []  # for each time that it was on a sink, what it held when

    def set_lengths(self, fields):
        """The attributes that the server gave it, in frames."""
        self.maxlength, self.prebuf = fields["maxlength"] // self.size, fields["prebuf"] // self.size

    def end(self):
        return self.held[-1][1] if self.held else self.read

    def left(self):
        """How many frames are there from the read index on."""
        return max(self.write - self.read, self.end() - self.read, 0)

    def is_short(self):
        return self.hold and self.write - self.read < self.prebuf

    def given(self, frames):
        return 0 if self.corked or self.is_short() else min(self.left(), frames)

    def read_after(self, frames):
        stays = self.prebuf > 0 or self.corked or self.is_short()
        return self.read + (self.given(frames) if stays else frames)

    def go(self, frames, horizon):
        """So many frames on from its sink's horizon: what it gives can't change any more."""
        if not frames or self.corked:
            return
        for first, last in within(self.held, self.read, self.read + self.given(frames)):
            self.plays(*(self.sink.at(horizon + index - self.read) for index in (first, last)))
        if not self.is_short():
            runs_dry = self.prebuf > 0 and frames > self.left()
            self.read, self.hold = self.read_after(frames), runs_dry
            self.held = within(self.held, self.read, self.end())

    def plays(self, first, last):
        if self.played and self.played[-1][1] == first:
            first = self.played.pop()[0]
        self.played.append((first, last))

    def take(self, write, seek, offset):
        """A write, as the sink takes it; it stands where it would play if the stream went on from here."""
        sink, read = self.sink, self.read
        first = [self.write, 0, read, self.end()][seek] + offset
        last = first + write.frames
        ahead = self.read_after(sink.filled - sink.horizon)
        write.lost = (not self.held or last > self.end()) and last - ahead > self.maxlength
        write.stands = tuple(sink.at(sink.horizon + index - read) for index in (first, last))
        write.late = sink.at(sink.horizon + min(last, read) - read) if first < read else None
        if not write.lost:
            self.held = with_stretch(self.held, max(first, read), last)
        self.write = last

    def told(self, kind, more):
        """What its sink does to it beside writes."""
        if kind == "cork":
            self.corked = more
        elif kind in ("drain", "trigger"):
            self.hold = False
        elif kind == "attributes":
            self.set_lengths(more)
            self.hold = self.hold and self.prebuf > 0
        elif kind in ("flush", "prebuf"):
            if kind == "flush":
                self.held, self.write = [], self.read
            self.hold = self.prebuf > 0


class Sink:
    """A sink: its turns, what it played, and the messages that wait for it."""

    def __init__(self, number, spec):
        self.number, self.spec = number, spec
        self.consumed = self.filled = self.horizon = 0
        self.waiting, self.streams = deque(), []
        self.leaving = 0  # streams that it gave up, which nobody knows yet
        self.fails, self.stopped = False, False  # whether its device fails at the next turn, and whether it has stopped
        self.sound, self.turns, self.marks = bytearray(), [], []

    def at(self, frame):
        """When it plays a frame."""
        return frame / self.spec.spec[2]

    def now(self):
        return self.at(self.consumed)

    def post(self, kind, stream=None, *more):
        self.waiting.append((kind, stream, more))

    def turn(self, frames, taken):
        """The streams go on to the new horizon, then the messages are taken, then all is mixed up to the depth. Where the device failed no
        frame is played, and those from the new horizon on are dropped."""
        self.stopped = self.stopped or self.fails
        frames = 0 if self.stopped else frames
        self.consumed += frames
        horizon = min(self.filled, self.consumed + self.spec.guard)
        for stream in self.streams:
            stream.go(horizon - self.horizon, self.horizon)
        self.horizon, self.filled = horizon, horizon if self.stopped else self.filled
        for _ in range(min(taken, len(self.waiting))):
            self.take(*self.waiting.popleft())
        self.filled = self.horizon if self.stopped else self.consumed + self.spec.depth
        self.turns.append((self.consumed, self.horizon))
        for stream in self.streams:
            stream.levels[-1].append((self.now(), stream.left()))

    def take(self, kind, stream, more):
        if kind in ("new", "attach"):
            self.streams.append(stream)
            stream.levels.append([(self.now(), stream.left())])
        elif stream not in self.streams:
            pass
        elif kind == "gone":
            self.streams.remove(stream)
            stream.levels[-1].append((self.now(), 0))
            self.leaving += stream.moving is None
        elif kind == "write":
            stream.take(*more)
        else:
            stream.told(kind, *more)

    def collect(self):
        """The streams that it gave up are known: the others get new factors."""
        for _ in range(self.leaving):
            self.post("factors")
        self.leaving = 0
