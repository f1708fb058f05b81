"""Streams on their sinks, slowly and plainly: each sample that was ever written in a map from index to sample, each frame mixed anew."""

import copy

import samples
import volumes
import wire

LAST = 1 << 60  # the greatest index of a frame, and the least below 0


class Stream:
    """A stream on its sink. Indices count frames; `held` has the numbers of each index that was written."""

    def __init__(self, owner, number, sink, spec, feed, lengths, corked):
        self.owner, self.number, self.sink, self.spec, self.feed, self.corked = owner, number, sink, spec, feed, corked
        self.size = wire.frame_size(spec)
        self.maxlength, self.tlength, self.prebuf, self.minreq = lengths
        self.read = self.write = 0
        self.held = {}
        self.hold = self.prebuf > 0
        self.draining = []
        self.requested = self.tlength
        self.factors = None  # one for each channel of the sink
        self.quiet, self.run = True, 0
        self.leaving = False
        self.moving, self.delayed = None, []  # the sink that it is on its way to, and what it is told meanwhile
        self.client, self.positions, self.properties = 0, [], {}  # what is told of it beside

    def is_short(self):
        """It waits for frames until prebuf of them are there."""
        return self.hold and self.write - self.read < self.prebuf

    def given(self, frames):
        """How many of the next `frames` frames it gives."""
        return 0 if self.corked or self.is_short() else min(max(self.edge() - self.read, 0), frames)

    def read_after(self, frames):
        """The read index `frames` frames on: without prebuffering it goes on where nothing is left."""
        return self.read + (self.given(frames) if self.prebuf or self.corked or self.is_short() else frames)

    def end(self):
        return max(self.held) + 1 if self.held else self.read

    def edge(self):
        return max(self.write, self.end()) if self.held else self.write

    def frame(self, ahead):
        """The samples of the frame so far ahead, or None."""
        return self.held.get(self.read + ahead) if self.given(ahead + 1) > ahead else None

    def share(self, ahead, width, factors):
        """What it adds to each channel of a sink of this width, so far ahead, by these factors."""
        frame, own = self.frame(ahead), samples.WIDTHS[self.spec[0]]
        fed = frame and [samples.brought(frame[channel], own, width) for channel in self.feed]
        return fed and [value * factor >> 16 for value, factor in zip(fed, factors)]

    def go(self, frames):
        """Goes forward, and answers what is told of it."""
        if not frames or self.corked:
            return []
        given = self.given(frames)
        was_quiet, self.quiet = self.quiet, given < frames
        goes_on = was_quiet == self.quiet and (given == 0 or not self.quiet)
        self.run = self.run + frames if goes_on else frames - (given if self.quiet else 0)
        runs_dry = self.prebuf > 0 and frames > self.edge() - self.read
        if not self.is_short():
            self.read, self.hold = self.read_after(frames), runs_dry
        self.held = {at: frame for at, frame in self.held.items() if at >= self.read}
        said = ["started"] if was_quiet and given else []
        return said + (["underflow"] if self.quiet and (given or not was_quiet) and not self.draining else [])

    def take(self, seek, offset, frames, ahead):
        """A write; whether it overflows."""
        first = [self.write, 0, self.read, self.end()][seek] + offset
        last = first + len(frames)
        if first < -LAST or last > LAST:
            return True
        self.write = first
        limit = self.end() if self.held else self.write
        over = last > limit and last - ahead > self.maxlength
        if not over:
            for place, frame in enumerate(frames):
                if self.write + place >= self.read:
                    self.held[self.write + place] = frame
        self.write = last
        self.requested = max(self.requested - len(frames), 0)
        return over


class Sink:
    def __init__(self, number, spec):
        self.number, self.spec = number, spec
        self.group = volumes.Group(spec.spec[1])
        self.consumed = self.filled = self.horizon = 0
        self.frames = []  # from frame 0 on
        self.fails = self.stopped = False  # its device fails at the next turn; it has failed
        self.inputs = {}
        self.waiting, self.notices = [], []

    def factors_of(self, number, ahead):
        """The factors of an input `ahead` frames past the horizon."""
        return self.inputs[number].factors

    def mix(self, ahead):
        width = samples.WIDTHS[self.spec.spec[0]]
        shares = (stream.share(ahead, width, self.factors_of(number, ahead)) for number, stream in self.inputs.items())
        found = [share for share in shares if share]
        sums = [sum(parts) for parts in zip(*found)] or [0] * self.spec.spec[1]
        most = (1 << width - 1) - 1
        return b"".join(samples.sample_of(self.spec.spec[0], min(max(value, -most - 1), most)) for value in sums)

    def turn(self, frames, taken):
        """What it plays. A turn whose device fails plays nothing, drops the frames that can still change, and mixes none."""
        self.stopped = self.stopped or self.fails
        frames = 0 if self.stopped else frames
        played = self.frames[self.consumed : self.consumed + frames]
        self.consumed += frames
        horizon = min(self.filled, self.consumed + self.spec.guard)
        for number in sorted(self.inputs):
            self.notices += [(number, word, 0) for word in self.inputs[number].go(horizon - self.horizon)]
        self.horizon = horizon
        self.filled = horizon if self.stopped else self.filled
        for _ in range(taken):
            self.take(*self.waiting.pop(0))
        del self.frames[self.horizon :]
        last = self.horizon if self.stopped else self.consumed + self.spec.depth
        self.frames += [self.mix(ahead) for ahead in range(last - self.horizon)]
        self.filled = last
        for number in sorted(self.inputs):
            self.ask(number, self.inputs[number])
        return played

    def take(self, kind, number, more):
        if kind == "new":
            self.inputs[number] = more
        elif kind == "attach":
            self.inputs[number], more[0].feed, more[0].factors = more
        elif kind == "gone":
            del self.inputs[number]
            self.notices.append((number, "detached", 0))
        elif kind == "write":
            stream = self.inputs[number]
            if stream.take(*more, stream.read_after(self.filled - self.horizon)):
                self.notices.append((number, "overflow", 0))
        elif kind == "factors":
            for known in self.inputs.keys() & more.keys():
                self.inputs[known].factors = more[known]
        else:
            self.tell(kind, number, self.inputs[number], more)

    def tell(self, kind, number, stream, more):
        if kind == "drain":
            stream.hold = False
            stream.draining.append(more)
        elif kind == "cork":
            stream.corked = more
        elif kind == "trigger":
            stream.hold = False
        elif kind == "attributes":
            stream.maxlength, stream.tlength, stream.prebuf, stream.minreq = more
            stream.hold = stream.hold and stream.prebuf > 0
        elif kind == "query":
            then = copy.copy(stream)
            then.go(self.filled - self.horizon)
            plays = not then.corked and not then.quiet
            self.notices.append((number, "latency", (more, self.filled - self.consumed, plays, then)))
        else:
            if kind == "flush":
                stream.held, stream.write = {}, stream.read
            stream.hold = stream.prebuf > 0

    def ask(self, number, stream):
        if stream.read >= stream.edge():
            self.notices += [(number, "drained", tag) for tag in stream.draining]
            stream.draining = []
        ahead = stream.read_after(self.filled - self.horizon)
        missing = stream.tlength - max(stream.write - ahead, 0) - stream.requested
        if missing >= stream.minreq:
            stream.requested += missing
            self.notices.append((number, "request", missing))
