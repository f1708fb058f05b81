#!/usr/bin/env python3
"""The session that a number and a count give, reckoned from the rules of the generator: generator.py NUMBER COUNT > session.prs"""
import struct
import sys


def word(n):
    return struct.pack(">I", n)


def number(n):
    return b"L" + word(n)


def frame(packet):
    return word(len(packet)) + word(0xFFFFFFFF) + bytes(12) + packet


def event(conn, frame):
    return b"\x02" + word(conn) + word(len(frame)) + frame


def turn(sink, frames, messages):
    return b"\x05" + bytes([sink]) + word(frames) + word(messages)


COOKIE = bytes(256)
AUTH = number(8) + number(0) + number(13) + b"x" + word(256) + COOKIE


def positions(conn):
    return bytes([0]) if conn == 4 else bytes([1, 2])


def create(conn):
    many = positions(conn)
    most = number(0xFFFFFFFF)
    return (
        number(3) + number(1)
        + b"a" + bytes([3, len(many)]) + word(48000)
        + b"m" + bytes([len(many)]) + many
        + number(1 if conn == 4 else 0) + b"N"
        + most + b"0" + most + number(1) + most + most
        + b"v\x01" + word(65536) + b"0" * 9 + b"PN"
    )


def header():
    a = b"\x01a" + bytes([3, 2]) + word(48000) + bytes([1, 2]) + word(64) + word(512)
    b = b"\x01b" + bytes([7, 1]) + word(48000) + bytes([0]) + word(0) + word(256)
    return b"PRS1" + COOKIE + b"\x02" + a + b


def session(seed, count):
    state = seed

    def following():
        nonlocal state
        state = (state * 6364136223846793005 + 1442695040888963407) % 2**64
        return state // 2**33

    yield header()
    for conn in 1, 2, 3, 4:
        yield b"\x01" + word(conn) + event(conn, frame(AUTH)) + event(conn, frame(create(conn)))
    yield turn(0, 0, 6) + turn(1, 0, 2)
    for _ in range(count):
        v = following()
        conn = 1 + v % 4
        choice = v // 4 % 8
        if choice == 0:
            said = frame(number(37) + number(2) + number(conn - 1) + b"v\x01" + word(following() % 65537))
        elif choice == 1:
            said = frame(number(41) + number(3) + number(0) + (b"1" if following() % 4 == 0 else b"0"))
        else:
            samples = b"".join(struct.pack("<H", following() % 65536) for _ in range(64 * len(positions(conn))))
            said = word(len(samples)) + bytes(16) + samples
        yield event(conn, said) + turn(1 if conn == 4 else 0, 64, 1)
    yield b"\x00"


if __name__ == "__main__":
    for piece in session(int(sys.argv[1]), int(sys.argv[2])):
        sys.stdout.buffer.write(piece)
