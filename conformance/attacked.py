"""Rows of conformance/live in which one client attacks, by a session of `attacks.py`, while another plays on.

The player has a second of sound at the server, and sends more as it is asked. Where the core can't take its frames for longer than that, the
sink plays silence, which stands in its file. Where a sink's own worker is held up, its device skips what is due, and nothing of it stands in the file:
the sound then takes longer than it is. So both are looked at. The counts are such that no attack holds this server up for a second on a
machine with other work; a cost that grows with the square of what is sent, as that of moves and removals once did, or a stop of seconds, is seen."""

import functools
import os
import re
import socket
import threading
import time

import attacks
import wire
from client import DRAIN, RATE, REPLY, Client, packet
from maker import make
from recording import read_session
from served import PATIENCE, Served, tone

FRAME = 4  # bytes, in stereo
SOUND = 2  # seconds that the player plays
AHEAD = 1  # seconds of it that wait at the server, and are there before it begins
LATE = 3  # the most seconds that it may take longer than it sounds, on a machine with other work too
REQUEST, UNDERFLOW, STARTED = 61, 63, 86
CONNECT, BYTES, CLOSE = 1, 2, 3  # kinds of events
SINKS = ["out", "left", "s2", "s3"]
# each attack with the count of what it sends
COUNTS = {
    "moved": 5_000,
    "back_and_forth": 20,
    "falling": 3_000,
    "shuffled": 3_000,
    "split_up": 3_000,
    "single_frames": 5_000,
    "flushed": 3_000,
    "one_hash": 4_000,
    "removed_keys": 10_000,
    "one_key_of_many": 5_000,
    "renamed": 5_000,
    "come_and_gone": 1_000,
    "connected": 150,
    "visited": 150,
    "declared": 50,
    "in_pieces": 20_000,
    "drained": 3_000,
    "asked": 3_000,
    "in_vain": 1_500,
    "listeners": 150,
    "lists": 150,
    "silence": 60,
    "unchanged": 300,
    "rewound": 300,
}


@functools.cache
def song():
    """What the player plays in each row."""
    return tone(SOUND * RATE, 2)


def lines_of(name, count):
    """The lines of an attack at a server whose first input is the player's: its inputs come after that, and can't be heard."""
    for line in attacks.silence(count, 2) if name == "silence" else attacks.ATTACKS[name](count):
        line = re.sub(r" input (\d+)", lambda said: f" input {int(said[1]) + 1}", line)
        yield f"{line} muted" if line.startswith("create") else line


def events_of(name, count, cookie):
    """What the attack's clients do: the kind, the connection, and the bytes that it sends."""
    text = "\n".join([f"cookie {cookie.hex()}", *lines_of(name, count), "end", ""])
    return [event for event in read_session(make(text)).events if event[0] in (CONNECT, BYTES, CLOSE)]


class Attack(threading.Thread):
    """Clients that do these events as fast as they can. What they are answered is read and dropped; one that the server ends is silent."""

    def __init__(self, path, events):
        super().__init__()
        self.path, self.events, self.clients = path, events, {}

    def drop(self, client):
        with client:
            try:
                while client.recv(65_536):
                    pass
            except OSError:
                pass

    def act(self, kind, conn, *data):
        if kind == CONNECT:
            self.clients[conn] = client = socket.socket(socket.AF_UNIX)
            client.settimeout(PATIENCE)
            client.connect(self.path)
            threading.Thread(target=self.drop, args=(client,)).start()
        elif kind == BYTES:
            self.clients[conn].sendall(*data)
        else:
            self.clients.pop(conn).shutdown(socket.SHUT_RDWR)

    def run(self):
        for event in self.events:
            try:
                self.act(*event)
            except OSError:
                pass

    def end(self):
        """The clients hang up, once all was sent."""
        if self.ident is not None:
            self.join()
        for client in self.clients.values():
            try:
                client.shutdown(socket.SHUT_RDWR)
            except OSError:
                pass


def plays_on(served, sound, attack):
    """Plays a sound as the server asks for it, with the attack from its first frame on; the seconds that it took, or None where it underran."""
    with Client(served.socket, PATIENCE) as client:
        client.enter(served.cookie)
        stream, _ = client.create("out", AHEAD * RATE * FRAME)
        sent, drains, began = 0, None, time.monotonic()
        asked = AHEAD * RATE * FRAME
        while True:
            if asked and drains is None:
                client.send(wire.frame_of(stream, 0, 0, sound[sent : sent + asked]))
                sent, asked = sent + asked, 0
            if sent >= len(sound) and drains is None:
                drains = client.tag
                client.send(packet(DRAIN, drains, wire.number(stream)))
            command, tag, fields = client.next_packet() or (None, None, None)
            if command == STARTED:
                attack.start()
            elif command == REQUEST:
                asked = int.from_bytes(fields[6:10], "big")
            elif command == UNDERFLOW or command is None:
                return None
            elif (command, tag) == (REPLY, drains):
                return time.monotonic() - began


def under(program, folder, name, count):
    """Whether a player is heard whole, without a gap and in time, while others do what the attack of this name says."""
    sound, cookie = song(), os.urandom(256)
    events = events_of(name, count, cookie)
    served = Served(program, folder, 1 + sum(event[0] == CONNECT for event in events), SINKS, cookie=cookie)
    attack = Attack(served.socket, events)
    try:
        took = plays_on(served, sound, attack)
    finally:
        attack.end()
    ended = served.ended()
    if took is None or took > SOUND + LATE or ended != (0, "") or sound not in served.played("out"):
        print(f"  the player took {took} seconds, and the server ended with {ended}")
        return False
    return True


def row_of(name, count):
    """The row of an attack."""

    def row(program, folder):
        return under(program, folder, name, count)

    row.__name__ = f"under_{name}"
    row.__doc__ = f"A player is heard whole, without a gap and in time, beside a client with this: {attacks.ATTACKS[name].__doc__}"
    return row


ROWS = tuple(row_of(*it) for it in COUNTS.items())
