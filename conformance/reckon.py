#!/usr/bin/env python3
"""Reckons by the rules of docs what a session must give, slowly and plainly, and shares no code with the program.

  conformance/reckon.py SESSION.session > SESSION.output
  conformance/reckon.py --dice NUMBER TURNS > SESSION.session     a long session of three streams, thrown with dice
  conformance/reckon.py --life NUMBER TURNS > SESSION.session     the same, with prebuffering and all commands of a stream's life
  conformance/reckon.py --formats NUMBER FORMAT > SESSION.session     streams of every format to a sink of this one, with dice
  conformance/reckon.py --sinks NUMBER TURNS > SESSION.session    streams of two clients on three sinks, with dice
  conformance/reckon.py --moves NUMBER TURNS > SESSION.session    streams of two clients that move between three sinks, with dice
  conformance/reckon.py --stops NUMBER TURNS > SESSION.session    streams that live and move on three sinks, two of whose devices stop, with dice
  conformance/reckon.py --lanes NUMBER TURNS > SESSION.session    streams that come, are told everything, move and leave, with dice
  conformance/reckon.py --volumes NUMBER CALLS > SESSION.session  volumes and mutes of a sink and its streams, with dice
  conformance/reckon.py --volumes-18 NUMBER CALLS > SESSION.session     the same at version 18: volumes that are set, that aren't, and relative ones
  conformance/reckon.py --full > SESSION.session                  as many sinks as there can be, with as many streams in all
  conformance/reckon.py --crowded > SESSION.session               a sink with as many streams as there can be, and others that would move to it
  conformance/reckon.py --fronts > SESSION.session                each command cut off at each of its bytes, and with a byte too many
  conformance/reckon.py --loud > SESSION.session                  four such sinks whose streams are as loud as can be
  conformance/reckon.py --attack NAME COUNT > SESSION.session     one of attacks.py: events that bring little and could cost much

It keeps each sample that was ever written in a map from index to sample, and mixes each frame anew. It knows volumes and mutes,
the commands of a stream's life and its moves, names and property lists of clients and streams, the infos of sinks, inputs and
clients, what those who listen are told of these, and only sessions that are played to their end and ask for nothing that is refused but by ACCESS, BADSTATE, VERSION,
INVALID, NOENTITY, TOOLARGE and BUSY, and a stream that is made or moved by NOTSUPPORTED too, as the commands of record streams are. Of a packet that it can't read it takes
the last byte to be too much where it can read the others, and else the packet to be too short."""
import os
import sys

sys.dont_write_bytecode = True
HERE = os.path.dirname(os.path.realpath(__file__))
sys.path[:0] = [HERE, os.path.join(os.path.dirname(HERE), "tools")]

import attacks
import crowds
import fronts
import lanes
import output
import throws
from maker import make
from recording import read_session
from server import Server


def reckoned(session):
    cookie, sinks, events, _ = read_session(session)
    server = Server(cookie, sinks)
    for event in events[:-1]:
        server.event(event)
    return bytes(server.said) + b"\0"


THROWS = {
    "--dice": throws.thrown,
    "--life": throws.thrown_life,
    "--sinks": throws.thrown_sinks,
    "--moves": throws.thrown_moves,
    "--stops": throws.thrown_stops,
    "--volumes": throws.thrown_volumes,
    "--volumes-18": lambda number, count: throws.thrown_volumes(number, count, 18),
    "--lanes": throws.thrown_lanes,
}
WHOLE = {"--full": crowds.full, "--crowded": crowds.crowded, "--loud": lanes.loud, "--fronts": fronts.thrown_fronts}


def thrown_by(words):
    """The session that the words ask for, or None where they ask for none."""
    if len(words) == 3 and words[0] in THROWS:
        return THROWS[words[0]](int(words[1]), int(words[2]))
    if len(words) == 3 and words[0] == "--formats":
        return throws.thrown_formats(int(words[1]), words[2])
    if len(words) == 3 and words[0] == "--attack" and words[1] in attacks.ATTACKS:
        return attacks.thrown(words[1], int(words[2]))
    return WHOLE[words[0]]() if len(words) == 1 and words[0] in WHOLE else None


def main(words):
    session = thrown_by(words)
    if session is not None:
        sys.stdout.write(session)
        return 0
    if len(words) != 1:
        print(__doc__, file=sys.stderr)
        return 2
    with open(words[0], encoding="utf-8") as file:
        session = make(file.read())
    sys.stdout.write(output.show(reckoned(session), read_session(session))[0])
    return 0


if __name__ == "__main__":
    sys.exit(main(sys.argv[1:]))
