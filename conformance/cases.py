"""The runs of rows: as their sessions are, cut otherwise, converted, and by `replay --monitor`, `replay --samples` and `replay --ramp` in place of
`replay`."""

import copy
import re

from packets import COMMANDS, RECORDERS, SAMPLERS, Spoken, fields_at, read_packet
from records import whole_frames
from recording import TWO, Place, Session, read_event, read_header, spelled_bytes, spelled_event, spelled_header
from renumbered import fits, renumbered
from wire import CONTROL, number
from words import Wrong

WHOLE = "whole"
REPLAY, MONITOR, SAMPLES, RAMP = ["replay"], ["replay", "--monitor"], ["replay", "--samples"], ["replay", "--ramp", "30"]
LONGEST_CUT = 4_000_000  # bytes of a session that is cut in small pieces too
REFUSAL = re.compile(r"pulse_rw: refused at ([0-9]+): (.*\n)")
KILL, CREATE = (number(COMMANDS[word][0]) for word in ("kill-client", "create"))  # how these commands begin
LOUDNESS = ("volume", "sink-volume", "mute", "sink-mute", "move")  # by which factors change
# how packets of these commands begin
RECORDS, UPLOADS, CHANGES = (tuple(number(COMMANDS[word][0]) for word in words) for words in (RECORDERS, SAMPLERS, LOUDNESS))
FULL = 0x10000  # the volume of a stream that is as loud as it is


def parts_of(session):
    """The header and the events of a session as far as it is one, or None without a header; the offset of each event; and why it isn't whole."""
    place, offsets, read = Place(session), [], None
    try:
        form, cookie, sinks = read_header(place)
        read = Session(cookie, sinks, [], form)
        while not read.events or read.events[-1][0] != 0:
            offsets.append(place.at)
            read.events.append(read_event(place, form))
    except Wrong as wrong:
        return read, offsets, f"pulse_rw: {wrong}\n"
    return read, offsets, ""


def cut(session, size):
    """The session, which is whole, with what each client sends between two other events in pieces of `size` bytes."""
    read, _, _ = parts_of(session)
    made, held = bytearray(spelled_header(read.cookie, read.sinks, read.form)), None
    size = read.form.piece if size == WHOLE else size

    def hand_over():
        for at in range(0, len(held[1]), size):
            made.extend(spelled_bytes(held[0], held[1][at : at + size], read.form))

    for event in read.events:
        if event[0] == 2:
            if held and held[0] != event[1]:
                hand_over()
                held = None
            held = (event[1], (held[1] if held else b"") + event[2])
            continue
        if held:
            hand_over()
            held = None
        made += spelled_event(event, read.form)
    return bytes(made)


def conversions_of(row):
    """The run that converts a row's session, and the run that replays what comes: the row's own but for the offset of its refusal."""
    read, offsets, line = parts_of(row.session)
    made, places = bytearray(spelled_header(read.cookie, read.sinks, TWO) if read else b""), {}
    for offset, event in zip(offsets, read.events if read else []):
        places[offset] = len(made)
        made += spelled_event(event, TWO)
    converts, replays = copy.copy(row), copy.copy(row)
    converts.words, converts.status, converts.log = ["convert"], int(line != ""), line
    converts.form, converts.output = "bytes", bytes(made)
    yield f"{row.name}, converted", converts, row.session
    replays.session, refusal = bytes(made), REFUSAL.fullmatch(row.log)
    if row.log == line and line:
        replays.log = f"pulse_rw: refused at {len(made)}: truncated\n"
    elif refusal:
        replays.log = f"pulse_rw: refused at {places[int(refusal[1])]}: {refusal[2]}"
    yield f"{row.name}, in the second form", replays, replays.session


def cases_of(rows, cuts, convert):
    """(label, row, session) for each run. What is refused isn't cut, since its offset counts the session's bytes."""
    for row in rows:
        if row.has_fronts:
            fronts = map(row.front, range(len(row.session)))
            yield from ((f"{row.name}, {len(front.session)} bytes", front, front.session) for front in fronts)
            continue
        for size in cuts:
            if size is None:
                yield row.name, row, row.session
            elif row.status == 0 and row.form == "records" and (size == WHOLE or len(row.session) <= LONGEST_CUT):
                label = WHOLE if size == WHOLE else f"in pieces of {size}"
                yield f"{row.name}, {label}", row, cut(row.session, size)
        if convert and row.session and row.words != ["convert"] and not row.ends:
            yield from conversions_of(row)


def all_cases(rows, cuts, convert, monitor, samples, ramp):
    """(label, row, session) for each run, those of ordinary rows by `replay --monitor`, by `replay --samples` and by `replay --ramp` last."""
    yield from cases_of(rows, cuts, convert)
    modes = (monitor, "by --monitor", monitored), (samples, "by --samples", sampled), (ramp, "by --ramp", ramped)
    for asked, label, others in modes:
        if asked:
            cases = cases_of(others(row for row in rows if row.words == REPLAY), cuts, False)
            yield from ((f"{it}, {label}", row, session) for it, row, session in cases)


def monitored(rows):
    """Those of the rows that give the same by `replay --monitor`: no client makes a record stream, and the sweep of an event doesn't matter."""
    for row in rows:
        if not sends(row.session, RECORDS) and is_swept_alike(row):
            row = copy.copy(row)
            row.words = MONITOR
            yield row


def sampled(rows):
    """Those of the rows that give the same by `replay --samples` but for the numbers of clients: no client sends a command of samples, and there is
    room for the server's own connection."""
    for row in rows:
        read = parts_of(row.session)[0]
        if read and fits(read.events) and not sends(row.session, UPLOADS) and is_swept_alike(row) and row.form == "records":
            yield renumbered(row, SAMPLES, read)


def ramped(rows):
    """Those of the rows that give the same by `replay --ramp`: no factor of an input changes, since no volume changes and all streams are as loud as
    they are."""
    for row in rows:
        if not sends(row.session, CHANGES) and not any(is_softened(*it) for it in created(row.session)):
            row = copy.copy(row)
            row.words = RAMP
            yield row


def created(session):
    """Each packet that begins as a CREATE does, with the version of its client."""
    for conn, payload, spoken in packets_in(session):
        if payload.startswith(CREATE) and conn in spoken.versions:
            yield payload, spoken.versions[conn]


def is_softened(payload, version):
    """Whether a CREATE, if it is one, asks for another volume than the full one."""
    read = read_packet(payload, version)
    asked = dict(zip((name for name, _, _ in fields_at("create", version)), read[2])) if read else {"volume": [FULL]}
    return any(volume != FULL for volume in asked["volume"])


def is_swept_alike(row):
    """Whether it makes no difference that each frame is an event of its own: no client is ended before the last frame of an event, after which it
    would be there no longer. A session that is played whole gives the same for any cut, so there it may be."""
    return row.status == 0 or not kills_within(row.session)


def kills_within(session):
    """Whether an event completes a KILL_CLIENT and frames after it."""
    read, held = parts_of(session)[0], {}
    for event in read.events if read else []:
        if event[0] == 1:
            held[event[1]] = bytearray()
        elif event[0] == 2:
            data = held.setdefault(event[1], bytearray())
            data += event[2]
            frames = list(whole_frames(data))
            if any(descriptor.channel == CONTROL and payload.startswith(KILL) for descriptor, payload in frames[:-1]):
                return True
    return False


def sends(session, fronts):
    """Whether a client sends a packet with one of these fronts once its AUTH was taken."""
    return any(payload.startswith(fronts) and conn in spoken.versions for conn, payload, spoken in packets_in(session))


def packets_in(session):
    """The connection and the payload of each control frame, and the versions that clients spoke before it."""
    read, held, spoken = parts_of(session)[0], {}, Spoken()
    for event in read.events if read else []:
        if event[0] == 1:
            held[event[1]] = bytearray()
            spoken.connect(event[1])
        elif event[0] == 2:
            data = held.setdefault(event[1], bytearray())
            data += event[2]
            for descriptor, payload in whole_frames(data):
                if descriptor.channel == CONTROL:
                    yield event[1], payload, spoken
                    spoken.hear(event[1], payload, read.cookie)
