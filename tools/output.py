#!/usr/bin/env python3
"""What `pulse_rw replay` writes, as readable text, as sound or as a picture.

  tools/output.py show FILE [whole] [--session FILE.prs]
  tools/output.py wav FILE --session FILE.prs --sink NAME > out.wav
  tools/output.py wav FILE --session FILE.prs --record CONNECTION STREAM > out.wav
  tools/output.py picture FILE --session FILE.prs > run.svg

show prints a line for each packet and each frame of sound sent, each connection ended, each turn that played, whose sound it tells as levels and counts,
or whole, and each device that stopped. It wants the session that was replayed where sound was played, since the session has the sinks' formats.
wav writes what one sink played, as a WAV file, or what a record stream was sent. picture draws the run, a lane for each sink and each stream. FILE is standard input where it is `-`."""

import sys

import wire
from command import ended
from picture import picture
from recording import Session, read_session
from recorders import Recorders, recorded
from records import Asked, Records
from replies import sent_words
from short import short
from words import NONE, Wrong, hex_words, line_of, number_of, quoted

REASONS = {1: "protocol fault", 2: "over a limit", 3: "killed by a client", 4: "cut for want of memory"}
FAULTS = {
    1: "zero length", 2: "too long", 3: "packet flags", 4: "shared memory", 5: "seek mode", 6: "wrong tag",
    7: "too short", 8: "bad value", 9: "bytes left over",
}


def told(record, sinks, recorders):
    """The line of a record."""
    if record[0] == 1:
        return line_of(["sent", str(record[1]), *frame_words(*record[1:], recorders)])
    if record[0] == 2:
        conn, reason, fault, at = record[1:]
        said = [REASONS.get(reason, f"reason {reason}")]
        if reason == 1 or fault or at:
            said.append(f"{FAULTS.get(fault, f'fault {fault}')} at byte {at} of what it sent")
        return f"closed {conn}: {', '.join(said)}\n"
    if record[0] == 4:
        sink, filled = record[1:]
        return line_of(["stopped", quoted(sinks[sink].name) if sinks else f"@{sink}", "filled", str(filled)])
    sink, frames, sound = record[1:]
    return line_of(["played", quoted(sinks[sink].name), str(frames), "frames:", *sound_words(sinks[sink].spec, sound)])


def frame_words(conn, frame, recorders):
    """The words of a frame that was sent: a packet's, those of a record stream's sound, or its bytes."""
    if len(frame) > 20 and frame == wire.packet_frame(frame[20:]):
        recorders.saw(conn, frame)
        return sent_words(frame[20:], recorders.asked.of(conn))
    return recorders.data_words(conn, frame, sound_words) or ["bytes", "hex", *hex_words(frame)]


def sound_words(spec, sound):
    """Its samples; its bytes where the upper byte of 24 bits in 32, which no sample says, is another than 0."""
    unsaid = {11: sound[3::4], 12: sound[::4]}.get(spec[0], b"")
    return ["hex", *hex_words(sound)] if any(unsaid) else wire.samples_words(spec, sound)


def show(data, session=None):
    """The lines of an output, and what ended it early, or None."""
    session = session or Session(None, None, [])
    sinks = session.sinks
    records, recorders, said = Records(data, sinks), Recorders(Asked(session.cookie, session.events)), []
    try:
        for record in records:
            said.append(told(record, sinks, recorders))
    except Wrong as wrong:
        return "".join(said), str(wrong)
    said.append("end\n" if records.ended else "no end byte: the run ended before its session's end\n")
    return "".join(said), None


def wav_samples(code, sound):
    """Samples as WAV files have them: 8 bits without sign, or 16, 24 or 32 bits little-endian."""
    size = wire.SIZES[code]
    if code in (0, 3, 7, 9):
        return sound
    pieces = bytearray(len(sound) // size * (3 if code in (11, 12) else size))
    order = {4: (1, 0), 8: (3, 2, 1, 0), 10: (2, 1, 0), 11: (0, 1, 2), 12: (3, 2, 1)}[code]
    for at, byte in enumerate(order):
        pieces[at :: len(order)] = sound[byte::size]
    return bytes(pieces)


def wav(data, session, name, file="the session"):
    """The WAV file of what the sink of that name played, and what ended the output early, or None. `file` is where the session is from."""
    sinks = session.sinks
    at = next((at for at, sink in enumerate(sinks) if sink.name == name.encode()), None)
    if at is None:
        raise Wrong(f"{file} has no sink {name}: it has {', '.join(sink.name.decode() for sink in sinks)}")
    records, fault = records_of(data, sinks, "played")
    return wav_file(sinks[at].spec, b"".join(record[3] for record in records if record[:2] == (3, at))), fault


def wav_of_record(data, session, conn, stream):
    """The WAV file of what a record stream was sent, and what ended the output early, or None."""
    records, fault = records_of(data, session.sinks, "sent")
    spec, sound = recorded(records, Asked(session.cookie, session.events), conn, stream)
    if spec is None:
        raise Wrong(fault or f"it tells of no record stream {stream} of connection {conn}")
    return wav_file(spec, sound), fault


def records_of(data, sinks, done):
    """The records of an output, and what ended it early, or None; `done` says what was done to its sound until then."""
    records, found, fault = Records(data, sinks), [], None
    try:
        for record in records:
            found.append(record)
    except Wrong as wrong:
        fault = str(wrong)
    if not records.ended and fault is None:
        fault = f"it has no end byte: the run ended before its session's end, and the sound is what was {done} until then"
    return found, fault


def wav_file(spec, sound):
    """The WAV file of sound in this format."""
    code, channels, rate = spec
    samples = wav_samples(code, sound)
    width = 3 if code in (11, 12) else wire.SIZES[code]
    size, padding = len(samples), b"\0" * (len(samples) % 2)
    if size > 0xFFFFFF00:
        raise Wrong(f"a WAV file can't hold {size} bytes of sound")
    frame = channels * width
    fields = [(16, 4), (1, 2), (channels, 2), (rate, 4), (rate * frame, 4), (frame, 2), (8 * width, 2)]
    form = b"".join(value.to_bytes(length, "little") for value, length in fields)
    body = b"WAVEfmt " + form + b"data" + size.to_bytes(4, "little") + samples + padding
    return b"RIFF" + len(body).to_bytes(4, "little") + body


def contents(name):
    """The bytes of a file, or of standard input for `-`."""
    if name == "-":
        return sys.stdin.buffer.read()
    with open(name, "rb") as file:
        return file.read()


OPTIONS = {"--session": 1, "--sink": 1, "--record": 2}  # each with how many words follow it
# The options that each word wants, one of these sets, and those that it may have beside.
WANTED = {
    "show": [(set(), {"--session", "--sink"})], "picture": [({"--session"}, set())],
    "wav": [({"--session", "--sink"}, set()), ({"--session", "--record"}, set())],
}


def options_of(words):
    """The options of the command line, each with the words after it, or None where they aren't as they should be."""
    given, at = {}, 0
    while at < len(words):
        name = words[at]
        count = OPTIONS.get(name)
        if count is None or at + count >= len(words):
            return None
        given[name] = words[at + 1 : at + 1 + count]
        at += 1 + count
    return given


def sound_file(data, session, given):
    """The WAV file that the options ask for, and what ended the output early, or None."""
    if "--sink" in given:
        return wav(data, session, *given["--sink"], *given["--session"])
    conn, stream = given["--record"]
    return wav_of_record(data, session, number_of(conn, "a connection"), number_of(stream, "a stream", 0, NONE - 1))


def main(words):
    words = list(words)
    whole = words[:1] == ["show"] and words[2:3] == ["whole"] and bool(words.pop(2))
    given, wanted = options_of(words[2:]), WANTED.get(words[0] if words else "", [])
    if len(words) < 2 or given is None or not any(need <= set(given) <= need | may for need, may in wanted):
        print(__doc__, file=sys.stderr)
        return 2
    named = given.get("--session", [""])[0]
    try:
        session = read_session(contents(named)) if named else None
    except Wrong as wrong:
        print(f"{named}: {wrong}", file=sys.stderr)
        return 1
    try:
        data = contents(words[1])
        if words[0] == "wav":
            made, fault = sound_file(data, session, given)
            sys.stdout.buffer.write(made)
        elif words[0] == "picture":
            text, fault = picture(data, session)
            sys.stdout.buffer.write(text.encode())
        else:
            text, fault = show(data, session)
            sys.stdout.write(text if whole else short(text))
        sys.stdout.flush()
        if fault:
            raise Wrong(fault)
    except Wrong as wrong:
        print(f"{words[1]}: {wrong}", file=sys.stderr)
        return 1
    return 0


if __name__ == "__main__":
    sys.exit(ended(main))
