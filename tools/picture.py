"""A run as a picture: a lane for each sink and each stream, over seconds and frames."""

from array import array
from html import escape
from math import floor, log10
import sys

import wire
from account import Run
from words import quoted

LEFT, WIDTH, RIGHT = 200, 1000, 30  # names, lanes and a margin
SINK_HEIGHT, STREAM_HEIGHT, HEAD, GAP = 122, 92, 46, 8
LETTER = 12  # what a mark's letter needs
MARKS = {  # a mark's letter, its colour and what the legend says of it
    "started": ("S", "#1b7a33", "STARTED was told"),
    "underflow": ("U", "#c62020", "UNDERFLOW was told: an underrun"),
    "overflow": ("O", "#c62020", "OVERFLOW was told"),
    "cork": ("C", "#b06a00", "corked"),
    "uncork": ("R", "#b06a00", "runs on (cork off)"),
    "moved": ("M", "#6a2fa0", "moved to another sink"),
    "volume": ("V", "#0b6fa4", "volume"),
    "mute": ("Q", "#0b6fa4", "mute"),
    "flush": ("F", "#555555", "flush"),
    "drain": ("D", "#555555", "drain"),
    "trigger": ("T", "#555555", "trigger"),
    "prebuf": ("P", "#555555", "prebuf"),
    "attributes": ("A", "#555555", "buffer attributes"),
    "ended": ("E", "#222222", "ended"),
    "stopped": ("X", "#c62020", "a sink's device stopped"),
}
WHY = {"late": ", too late to be heard", "lost": ", lost by an overflow"}
STYLE = """text{font:11px sans-serif;fill:#222}.s{font-size:9px;fill:#666}.b{font-weight:bold}.lane{fill:#f7f7f5;stroke:#ddd}
.grid{stroke:#e2e2de}.wave{fill:#2f6db5}.ahead{fill:#d8e4f2}.turn{stroke:#c77700;stroke-width:3}.tick{stroke:#c77700}
.written{fill:#7aa6d8;stroke:#fff;stroke-width:.5}.late{fill:#e08080}.lost{fill:none;stroke:#c62020}.sent{stroke:#333}
.held{fill:#cfd8bf;stroke:#7f9160;stroke-width:.7}.played{fill:#3c9a4e}.cork{fill:#f3dfb8}.life{stroke:#999}"""


def tops(code, sound):
    """The upper 16 bits of each sample."""
    size = wire.SIZES[code]
    if size == 1:
        upper, lower = sound.translate(bytes(byte ^ 0x80 for byte in range(256))), None
    else:
        most = {3: 1, 4: 0, 7: 3, 8: 0, 9: 2, 10: 0, 11: 2, 12: 1}[code]
        upper, lower = sound[most::size], sound[most + (1 if code in (4, 8, 10, 12) else -1) :: size]
    pairs = bytearray(2 * len(upper))
    high = 1 if sys.byteorder == "little" else 0
    pairs[high::2] = upper
    if lower is not None:
        pairs[1 - high :: 2] = lower
    return array("h", bytes(pairs))


def columns(count, frames):
    """Frames in columns: as many as there are, or one a frame."""
    cuts = min(count, frames)
    return [(at * frames // cuts, (at + 1) * frames // cuts) for at in range(cuts)]


def step_of(most, parts):
    """A step of 1, 2 or 5 times a power of ten, by which there are at most `parts` parts."""
    least = most / parts
    power = 10.0 ** floor(log10(least))
    return next(power * times for times in (1, 2, 5, 10, 20) if power * times >= least * (1 - 1e-9))


def time_words(seconds, whole):
    """A time, in the unit that suits the whole run."""
    unit, times = ("s", 1) if whole >= 1 else ("ms", 1000) if whole >= 0.001 else ("µs", 1_000_000)
    return f"{seconds * times:.6g} {unit}"


class Picture:
    """The drawing of a run, element by element, from the top down."""

    def __init__(self, run):
        self.run = run
        ends = [sink.at(max(sink.horizon, sink.consumed)) for sink in run.sinks]
        self.whole = max(max(ends), 1 / max(sink.spec.spec[2] for sink in run.sinks))
        self.grounds, self.parts, self.top = [], [], HEAD

    def x(self, seconds):
        return round(LEFT + WIDTH * min(max(seconds / self.whole, 0), 1), 2)

    def put(self, name, title=None, text=None, **fields):
        said = "".join(f' {key.rstrip("_").replace("_", "-")}="{escape(str(value))}"' for key, value in fields.items())
        inner = (f"<title>{escape(title)}</title>" if title else "") + escape(text or "")
        self.parts.append(f"<{name}{said}>{inner}</{name}>" if inner else f"<{name}{said}/>")

    def text(self, x, y, said, class_="", **fields):
        self.put("text", text=said, x=x, y=y, **({"class": class_} if class_ else {}), **fields)

    def line(self, x, y, to_x, to_y, class_, title=None, **fields):
        self.put("line", title, x1=x, y1=y, x2=to_x, y2=to_y, **{"class": class_}, **fields)

    def block(self, first, last, y, height, class_, title=None):
        """A block from one time to another; what lies outside of the run isn't drawn, and the shortest is seen."""
        x, end = self.x(first), self.x(last)
        if last > 0 and first < self.whole:
            self.put("rect", title, x=x, y=y, width=round(max(end - x, 0.5), 2), height=height, **{"class": class_})

    def lane(self, height, kind, names):
        """An empty lane with its names, whose top it answers."""
        top, self.top = self.top, self.top + height + GAP
        self.grounds.append(f'<rect x="{LEFT}" y="{top}" width="{WIDTH}" height="{height}" class="lane"/>')
        self.parts.append(f'<g class="{kind}-lane">')
        for at, name in enumerate(names):
            shown = name if len(name) <= 24 else name[:23] + "…"
            self.put("text", name if shown != name else None, shown, x=8, y=top + 14 + 12 * at, **{"class": "s" if at else "b"})
        return top

    # lanes

    def sink(self, sink):
        code, channels, rate = sink.spec.spec
        names = [f"sink {quoted(sink.spec.name)}", f"{wire.format_word(code)} {channels} {rate}"]
        names += [f"guard {sink.spec.guard} depth {sink.spec.depth}", f"{sink.consumed} frames played"]
        top = self.lane(SINK_HEIGHT, "sink", names)
        self.marks(sink.marks, top, 1)
        self.wave(sink, top + 14, 70)
        self.block(sink.now(), sink.at(sink.horizon), top + 14, 70, "ahead", f"settled, not played yet: up to frame {sink.horizon}")
        self.turns(sink, top + 89)
        self.frames(sink, top + SINK_HEIGHT - 18)
        self.parts.append("</g>")

    def wave(self, sink, top, height):
        """The least and the greatest sample of each column, over all channels."""
        code, channels, _ = sink.spec.spec
        samples, middle = tops(code, bytes(sink.sound)), top + height / 2
        count = max(round(self.x(sink.now()) - LEFT), 1)
        over, under, peak = [], [], max(max(samples, default=0), -min(samples, default=0), 1)
        for first, last in columns(count, len(samples) // channels):
            found = samples[first * channels : last * channels]
            edges = self.x(sink.at(first)), self.x(sink.at(last))
            for path, value in ((over, max(max(found), 0)), (under, min(min(found), 0))):
                path += [f"{edge},{round(middle - value * height / (2 * peak), 2)}" for edge in edges]
        self.line(LEFT, middle, self.x(sink.now()), middle, "grid")
        self.text(LEFT - 4, top + 8, f"{100 * peak / 32768:.3g} %", "s", text_anchor="end")
        if over:
            said = f"what was played; the edge of the lane is {100 * peak / 32768:.3g} % of full scale"
            self.put("polygon", said, points=" ".join(over + under[::-1]), **{"class": "wave"})

    def turns(self, sink, top):
        """A tick where each turn begins, and a line from there to its horizon."""
        drawn, rows = None, (top, top + 4)
        for consumed, horizon in sink.turns:
            x = self.x(sink.at(consumed))
            if drawn is not None and 0 < x - drawn < 3 and (consumed, horizon) != sink.turns[-1]:
                continue
            drawn, rows = x, rows[::-1]
            said = f"a turn at frame {consumed}, horizon {horizon}"
            self.line(x, top - 3, x, top + 7, "tick", said)
            self.line(x, rows[0], self.x(sink.at(horizon)), rows[0], "turn", said)

    def frames(self, sink, top):
        """The scale of the sink's own frames."""
        most = self.whole * sink.spec.spec[2]
        step = max(round(step_of(most, 10)), 1)
        for frame in range(0, int(most + 1e-9) + 1, step):
            x = self.x(sink.at(frame))
            self.line(x, top, x, top + 4, "life")
            self.text(x, top + 14, f"{frame}" + (" frames" if frame == 0 else ""), "s", text_anchor="middle" if frame else "start")

    def stream(self, stream):
        names = [f"{stream.conn} stream {stream.number}", *stream.names]
        names.append(" ".join([wire.format_word(stream.spec[0]), *map(str, stream.spec[1:])]))
        names.append(f"{sum(write.frames for write in stream.writes)} frames written")
        top = self.lane(STREAM_HEIGHT, "stream", names[:5])
        for first, last in stream.corks:
            self.block(first, stream.sink.now() if last is None else last, top + 1, STREAM_HEIGHT - 2, "cork", "corked")
        self.marks(stream.marks, top, 2)
        self.writes(stream, top + 30)
        self.held(stream, top + 48, 26)
        for first, last in self.apart(stream.played):
            self.block(first, last, top + 78, 10, "played", f"played: {time_words(first, self.whole)} to {time_words(last, self.whole)}")
        for y, word in ((40, "written"), (87, "played")):
            self.text(LEFT - 4, top + y, word, "s", text_anchor="end")
        self.parts.append("</g>")

    def apart(self, stretches):
        """Stretches in order; those without half a pixel between them become one."""
        found = []
        for first, last in sorted(stretches):
            if found and self.x(first) - self.x(found[-1][1]) < 0.5:
                found[-1] = found[-1][0], max(last, found[-1][1])
            else:
                found.append((first, last))
        return found

    def writes(self, stream, top):
        """A tick where writes were sent, and a block where their frames stand; blocks too short to be told apart become one."""
        short, ticks = {"written": [], "late": [], "lost": []}, {}
        for write in stream.writes:
            x = self.x(write.sent)
            ticks[round(x)] = x, ticks.get(round(x), (0, 0))[1] + write.frames
            said = f"{write.frames} frames, sent at {time_words(write.sent, self.whole)}"
            for class_, first, last in write.blocks():
                if self.x(last) - self.x(first) < 4:
                    short[class_].append((first, last))
                else:
                    self.block(first, last, top, 12, class_, f"{said}{WHY.get(class_, '')}")
        for class_, stretches in short.items():
            for first, last in self.apart(stretches):
                self.block(first, last, top, 12, class_)
        for x, frames in ticks.values():
            self.line(x, top + 9, x, top + 16, "sent", f"{frames} frames sent")

    def held(self, stream, top, height):
        """How many frames are there after each turn, as steps."""
        most = max((level for levels in stream.levels for _, level in levels), default=0)
        for levels in stream.levels:
            points, last = [f"{self.x(levels[0][0])},{top + height}"], None
            for x, level in self.steps(levels, stream):
                y = round(top + height - height * level / max(most, 1), 2)
                points += ([] if last is None else [f"{x},{last}"]) + [f"{x},{y}"]
                last = y
            points.append(f"{x},{top + height}")
            self.put("polygon", f"held after each turn, at most {most} frames", points=" ".join(points), **{"class": "held"})
        self.text(LEFT - 4, top + 24, f"held ≤ {most}", "s", text_anchor="end")

    def steps(self, levels, stream):
        """Where each level begins, and the last one again where it ends; of many in a column the greatest."""
        crowded, found = len(levels) > WIDTH, {}
        for time, level in levels:
            x = round(self.x(time)) if crowded else self.x(time)
            found[x] = max(level, found.get(x, 0)) if crowded else level
        end = stream.sink.now() if levels is stream.levels[-1] else levels[-1][0]
        return [*found.items(), (max(self.x(end), x), level)]

    def marks(self, marks, top, rows):
        """Each mark a line, and a letter where there is room in one of `rows` rows."""
        free, lines = [0.0] * rows, set()
        for time, word, said in marks:
            x, (letter, colour, _) = self.x(time), MARKS[word]
            if (word, round(x)) in lines and said == word:
                continue
            lines.add((word, round(x)))
            row = next((row for row in range(rows) if free[row] <= x), None)
            y = top + (12 if row is None else 12 * row + 12)
            title = f"{said}, at {time_words(time, self.whole)}"
            self.line(x, y - (10 if row is None else 0), x, top + 12 * rows + 4, f"mark {word}", title, stroke=colour)
            if row is not None:
                free[row] = x + LETTER
                self.put("text", title, letter, x=x, y=y - 2, fill=colour, style=f"fill:{colour};font-weight:bold", text_anchor="middle")

    # around the lanes

    def scale(self, bottom):
        """Seconds on top, with a line down through all lanes."""
        step, at = step_of(self.whole, 10), 0
        while step * at <= self.whole * (1 + 1e-9):
            x = self.x(step * at)
            self.line(x, HEAD - 6, x, bottom, "grid")
            self.text(x, HEAD - 10, time_words(step * at, self.whole), "s", text_anchor="middle")
            at += 1

    def legend(self):
        top, x = self.top + 10, LEFT
        blocks = [("wave", "played by the sink"), ("ahead", "settled, not played yet"), ("turn", "a turn and its horizon"), ("written", "written"),
                  ("late", "too late"), ("lost", "overflowed"), ("held", "held"), ("played", "played by the stream"), ("cork", "corked")]
        for class_, said in blocks:
            if class_ == "turn":
                self.line(x, top - 4, x + 14, top - 4, "turn")
            else:
                self.put("rect", x=x, y=top - 9, width=14, height=10, **{"class": class_})
            self.text(x + 18, top, said, "s")
            x += 30 + round(5.6 * len(said))
        top, x = top + 16, LEFT
        for letter, colour, said in MARKS.values():
            if x + 20 + round(5.6 * len(said)) > LEFT + WIDTH:
                top, x = top + 14, LEFT
            self.text(x, top, letter, style=f"fill:{colour};font-weight:bold")
            self.text(x + 12, top, said, "s")
            x += 26 + round(5.6 * len(said))
        self.top = top + 12

    def drawn(self):
        """The text of the picture: the scale lies over the lanes' ground and under all that is in them."""
        sinks, streams = self.run.sinks, self.run.streams
        for sink in sinks:
            self.sink(sink)
            for stream in streams:
                if stream.home is sink:
                    self.stream(stream)
        lanes, self.parts = self.parts, []
        self.scale(self.top - GAP)
        shown, self.parts = [*self.grounds, *self.parts, *lanes], []
        counts = [f"{len(them)} {word}{'s' * (len(them) != 1)}" for them, word in ((sinks, "sink"), (streams, "stream"))]
        self.text(8, 16, ", ".join([*counts, time_words(self.whole, self.whole)]), "b")
        self.legend()
        size = f"{LEFT + WIDTH + RIGHT} {self.top}"
        width, height = size.split()
        front = [f'<svg xmlns="http://www.w3.org/2000/svg" width="{width}" height="{height}" viewBox="0 0 {size}">']
        front += [f"<style>{STYLE}</style>", '<rect width="100%" height="100%" fill="#fff"/>']
        return "\n".join([*front, *shown, *self.parts, "</svg>", ""])


def picture(data, session):
    """The picture of a run, and what ended its output early, or None."""
    run = Run(session, data)
    return Picture(run).drawn(), run.fault
