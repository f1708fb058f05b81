#!/usr/bin/env python3
"""The header of a server: the sinks that it plays on, and the cookie that lets clients in.

  tools/header.py [--cookie FILE] [--guard FRAMES] [--depth FRAMES] SINK.. > desk.hdr

SINK is NAME[:FORMAT[:CHANNELS[:RATE]]], as `out` or `wide:s32le:6:48000`; s16le, 2 and 48000 where nothing else is said. The
channels lie as PulseAudio lays as many out. The guard, the frames that no later word changes, is a hundredth of a second at first,
and the depth, the frames that are mixed ahead, a tenth. The cookie is that of FILE, else the one that the clients of this user send
by themselves ($PULSE_COOKIE, ~/.config/pulse/cookie or ~/.pulse-cookie); where there is none it is made there, for this user alone. The header has
it, so the file that the header goes into is made its owner's alone too."""

import os
import sys

import packets
from command import ended, keep_private
from recording import SINK_FORMATS, SinkSpec, spelled_header
from words import Wrong, number_of, quoted

# pulse/channelmap.c, the default layout: mono; left and right; then front, rear, centre, LFE and sides as they are added
LAYOUTS = {
    1: [0],
    2: [1, 2],
    3: [1, 2, 3],
    4: [1, 2, 5, 6],
    5: [1, 2, 5, 6, 3],
    6: [1, 2, 5, 6, 3, 7],
    8: [1, 2, 5, 6, 3, 7, 10, 11],
}
COOKIE = 256


def positions_of(channels):
    """Where `channels` channels lie: by name where there is a layout, else as auxiliary channels."""
    return LAYOUTS.get(channels, [12 + channel for channel in range(channels)])


def sink_of(word, guard, depth):
    """The sink that a word says; what is wrong names the word."""
    try:
        return sink_said(word, guard, depth)
    except Wrong as wrong:
        raise Wrong(f"{word or quoted(b'')}: {wrong}") from None


def sink_said(word, guard, depth):
    name, form, channels, rate = (word.split(":") + ["", "", "", ""])[:4]
    if word.count(":") > 3:
        raise Wrong("a sink is NAME:FORMAT:CHANNELS:RATE")
    code = packets.format_of(form or "s16le")
    if code not in SINK_FORMATS:
        raise Wrong(f"a sink can't have the format {form}")
    channels = number_of(channels or "2", "the count of channels", 1, 32)
    rate = number_of(rate or "48000", "the rate", 1, 192_000)
    depth = max(rate // 10, 1) if depth is None else number_of(depth, "--depth", 1, 65_536)
    guard = min(rate // 100, depth) if guard is None else number_of(guard, "--guard", 0, depth)
    data = name.encode()
    if not 1 <= len(data) <= 64 or not all(0x21 <= byte <= 0x7E for byte in data) or data[:1] == b"@" or b"/" in data:
        raise Wrong("a name has 1 to 64 printable ASCII letters without blanks and slashes, the first of them not @")
    return SinkSpec(data, (code, channels, rate), positions_of(channels), guard, depth)


def sinks_of(words, guard, depth):
    sinks = [sink_of(word, guard, depth) for word in words]
    if not 1 <= len(sinks) <= 16 or len({sink.name for sink in sinks}) < len(sinks):
        raise Wrong(f"{' '.join(words)}: there are 1 to 16 sinks, each with a name of its own")
    return sinks


def own_cookies():
    """Where the clients of this user look for their cookie."""
    named = [os.environ["PULSE_COOKIE"]] if os.environ.get("PULSE_COOKIE") else []
    home = os.path.expanduser("~")
    return named + [os.path.join(home, ".config/pulse/cookie"), os.path.join(home, ".pulse-cookie")]


def new_cookie(path):
    os.makedirs(os.path.dirname(path) or ".", mode=0o700, exist_ok=True)
    with os.fdopen(os.open(path, os.O_WRONLY | os.O_CREAT | os.O_EXCL, 0o600), "wb") as file:
        cookie = os.urandom(COOKIE)
        file.write(cookie)
    print(f"{path}: a new cookie", file=sys.stderr)
    return cookie


def cookie_of(path):
    """The cookie of a file, or the user's own."""
    known = [path] if path else [place for place in own_cookies() if os.path.exists(place)]
    if not known:
        return new_cookie(own_cookies()[0])
    with open(known[0], "rb") as file:
        cookie = file.read()
    if len(cookie) != COOKIE:
        raise Wrong(f"{known[0]}: a cookie has {COOKIE} bytes, and this one has {len(cookie)}")
    return cookie


def split(words):
    """The options by name, and the sinks; None where a word is neither."""
    options, sinks, words = {}, [], list(words)
    while words:
        word = words.pop(0)
        if word in ("--cookie", "--guard", "--depth") and word not in options and words:
            options[word] = words.pop(0)
        elif word.startswith("-"):
            return None
        else:
            sinks.append(word)
    return (options, sinks) if sinks else None


def main(words):
    said = split(words)
    if said is None:
        print(__doc__, file=sys.stderr)
        return 2
    options, sinks = said
    try:
        made = sinks_of(sinks, options.get("--guard"), options.get("--depth"))
        keep_private()
        sys.stdout.buffer.write(spelled_header(cookie_of(options.get("--cookie")), made))
    except Wrong as wrong:
        print(wrong, file=sys.stderr)
        return 1
    return 0


if __name__ == "__main__":
    sys.exit(ended(main))
