"""Rows of `replay` by `replay --samples`: what they give there, where no client sends a command of samples.

It is what `replay` gives, but for the numbers of clients: the server's own connection is client 0, so each other client's number is one more, in
commands as in replies and events, and it stands before all others in the list of clients."""

import copy
import re

from packets import COMMANDS
from records import whole_frames
from recording import spelled_event, spelled_header
from wire import CONTROL, number
from words import NONE, lines_of, words_of

BY_NUMBER = tuple(number(COMMANDS[word][0]) for word in ("kill-client", "client-info"))  # how packets that name a client begin
MOST = 63  # connections at once, beside the server's own
OWN = "client 0 name sample-cache module none driver pulse_rw properties application.name=sample-cache"
QUOTED_OR_CLIENT = re.compile(r'"(?:[^"\\]|\\.)*"|\bclient (index )?([0-9]+)')
LIST = re.compile(r"(sent [0-9]+ reply tag [0-9]+ client-infos )(.*)")


def fits(events):
    """Whether the connections fit beside the server's own: none has its number, and there are never more than 63."""
    there = set()
    for event in events:
        there.add(event[1]) if event[0] == 1 else there.discard(event[1]) if event[0] == 3 else None
        if len(there) > MOST or NONE in there:
            return False
    return True


def session_of(read, whole):
    """The session with each number of a client that a packet names one more. What `read` has no events for stays: the bytes after a fault."""
    events, sent, lives = [list(event) for event in read.events], {}, []
    for event in events:
        if event[0] == 1:
            sent[event[1]] = []
            lives.append(sent[event[1]])
        elif event[0] == 2:
            event[2] = bytearray(event[2])
            sent.setdefault(event[1], []).append(event)
    for life in lives:
        raise_in(life)
    made = spelled_header(read.cookie, read.sinks, read.form) + b"".join(spelled_event(tuple(event), read.form) for event in events)
    return made + whole[len(made) :]


def raise_in(events):
    """Raises the numbers in the packets that these events of one client carry together."""
    data, at = bytearray(b"".join(event[2] for event in events)), 0
    for descriptor, payload in whole_frames(data):
        said = raised_in(payload) if descriptor.channel == CONTROL else payload
        if said != payload:
            put(events, at + 20, said)
        at += 20 + len(payload)


def raised_in(packet):
    """The packet, with the number of the client that it names one more."""
    if packet[:5] not in BY_NUMBER or packet[10:11] != b"L" or len(packet) < 15:
        return packet
    return packet[:11] + raised(int.from_bytes(packet[11:15], "big")).to_bytes(4, "big") + packet[15:]


def put(events, at, packet):
    """Puts a packet in the place where it stands in what these events carry together."""
    for event in events:
        size = len(event[2])
        first, last = max(at, 0), min(at + len(packet), size)
        if first < last:
            event[2][first:last] = packet[first - at : last - at]
        at -= size


def told(line):
    """A line of an output, with the numbers of clients one more."""
    more = QUOTED_OR_CLIENT.sub(lambda it: it[0] if it[2] is None else f"client {it[1] or ''}{raised(int(it[2]))}", line)
    return LIST.sub(lambda it: f"{it[1]}{OWN} / {it[2]}", more)


def raised(client):
    return client if client == NONE else client + 1


def renumbered(row, words, read):
    """The row by other words; `read` is its session as far as it is one."""
    row = copy.copy(row)
    row.words, row.session = words, session_of(read, row.session)
    row.output = "".join(f"{told(' '.join(words_of(line)))}\n" for _, line in lines_of(row.output))
    return row
