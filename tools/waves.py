"""WAV files: the formats that the server knows, and the line of a session's text that keeps one as a sample."""

import os
from typing import NamedTuple

import packets
import wire
from words import Wrong, hex_words, unquoted

PCM, FLOAT, ALAW, MULAW, EXTENSIBLE = 1, 3, 6, 7, 0xFFFE
CODES = {(PCM, 8): 0, (PCM, 16): 3, (PCM, 24): 9, (PCM, 32): 7, (ALAW, 8): 1, (MULAW, 8): 2}  # the server's format of a kind and the bits of its samples
KINDS = {PCM: "whole numbers", ALAW: "A-law", MULAW: "mu-law"}
SPEAKERS = (1, 2, 3, 7, 5, 6, 8, 9, 4, 10, 11, 44, 45, 47, 46, 48, 50, 49)  # the position of each bit of a file's mask
GUID = bytes.fromhex("000000001000800000aa00389b71")  # how the rest of the kind's identifier reads, after its two bytes
LONGEST = 1_048_576  # bytes of a sample


class Wave(NamedTuple):
    spec: tuple
    positions: list  # none where the file doesn't say them
    sound: bytes


def chunks_of(data):
    """The chunks of a WAV file by their names; of two with one name the first."""
    if data[:4] != b"RIFF" or data[8:12] != b"WAVE":
        raise Wrong("no WAV file: it doesn't begin with RIFF and WAVE")
    found, at = {}, 12
    while at + 8 <= len(data):
        name, length = data[at : at + 4], int.from_bytes(data[at + 4 : at + 8], "little")
        if at + 8 + length > len(data):
            raise Wrong(f"it ends in the middle: its part {name.decode('latin-1').strip()} has {length} bytes, and {len(data) - at - 8} are there")
        found.setdefault(name, data[at + 8 : at + 8 + length])
        at += 8 + length + length % 2
    return found


def read_wave(data):
    """What a WAV file has: its format, its positions where it says them, and its sound."""
    chunks = chunks_of(data)
    shape, sound = chunks.get(b"fmt ", b""), chunks.get(b"data")
    if len(shape) < 16 or sound is None:
        raise Wrong("no WAV file: it has no format" if len(shape) < 16 else "a WAV file without sound")
    number = lambda at, size: int.from_bytes(shape[at : at + size], "little")
    kind, channels, rate, size, bits, mask = number(0, 2), number(2, 2), number(4, 4), number(12, 2), number(14, 2), 0
    if kind == EXTENSIBLE:
        if len(shape) < 40 or shape[26:40] != GUID:
            raise Wrong("its samples are of a kind that no server knows")
        kind, mask = number(24, 2), number(20, 4)
    code = CODES.get((kind, bits))
    if code is None:
        known = "; the server knows whole numbers of 8, 16, 24 and 32 bits, A-law and mu-law"
        raise Wrong(f"its samples are {'floats' if kind == FLOAT else KINDS.get(kind, f'of the kind {kind}')} of {bits} bits{known}")
    spec = (code, channels, rate)
    if not 1 <= channels <= 32 or size != wire.frame_size(spec) or len(sound) % size:
        raise Wrong(f"{channels} channels of {bits} bits are no frames of {size} bytes, or its {len(sound)} bytes of sound aren't whole frames")
    return Wave(spec, positions_of(channels, mask), sound)


def positions_of(channels, mask):
    """One channel is mono, and two are left and right, whatever a mask says of the former; of more the mask must say which."""
    said = [position for bit, position in enumerate(SPEAKERS) if mask >> bit & 1]
    return [0] if channels == 1 else said if len(said) == channels else [1, 2] if channels == 2 else []


def opened(name, folder):
    """The WAV file of a name, which begins in a text's folder."""
    try:
        with open(os.path.join(folder, name), "rb") as file:
            return read_wave(file.read())
    except OSError as fault:
        raise Wrong(f"{name}: {fault.strerror}") from None
    except Wrong as wrong:
        raise Wrong(f"{name}: {wrong}") from None


# The line `upload CONN name TEXT from FILE`


def places_of(words):
    """Where each word that begins a field of an upload stands, by the word; what follows `name`, `tag` and `at` begins none."""
    found, at = {}, 0
    while at < len(words):
        found.setdefault(words[at], at)
        at += 2 if words[at] in ("name", "tag", "at") else 1
    return found


def kept(words, folder, stream):
    """The lines of words that make, fill and finish an upload of a file, whose number is `stream`. `words` begin with the connection."""
    places = places_of(words)
    at = places["from"]
    if at + 1 == len(words):
        raise Wrong("the line ends where a file should stand")
    name = unquoted(words[at + 1]).decode(errors="surrogateescape")
    wave, conn = opened(name, folder), words[0]
    if "map" not in places and not wave.positions:
        raise Wrong(f"{name}: its {wave.spec[1]} channels have no positions: say them, as in `map 1,2,5,6`")
    if not 1 <= len(wave.sound) <= LONGEST:
        raise Wrong(f"{name}: a sample has 1 to {LONGEST} bytes, and its sound {len(wave.sound)}")
    positions = [] if "map" in places else ["map", ",".join(map(str, wave.positions))]
    yield ["upload", *words[:at], *words[at + 2 :], *packets.say_spec(wave.spec), *positions, "length", str(len(wave.sound))]
    yield ["data", conn, "stream", str(stream), "hex", *hex_words(wave.sound)]
    yield ["finish-upload", conn, "stream", str(stream)]
