"""Texts made short: a line an event, and stretches of sound as a level and a count."""

import re

FEW = 8  # a sound of at most as many words is told whole
LONG = 16  # frames of one value that stand by themselves
SOUND = re.compile(r"(-?[0-9]+(?:/-?[0-9]+)*)(?:x([0-9]+))?")
FRAMES = re.compile(r"(played \S+ [0-9]+ frames:)(.*)", re.DOTALL)
HEX = re.compile(r"((?:.* )?hex)((?: [0-9a-f]{2,64}(?:x[0-9]+)?)+)")
DATA = re.compile(r"((?:data|sent) [0-9]+(?: data)? stream [0-9]+(?: (?:seek|offset|flags) \S+)*)((?: -?[0-9]+(?:/-?[0-9]+)*(?:x[0-9]+)?)+)")


def level(word):
    """The greatest height above silence, in any channel."""
    return max(abs(int(value)) for value in word.split("/"))


def short_sound(words):
    """Stretches of one value, and `~LEVELxFRAMES` for frames of changing values of at most this height."""
    if len(words) <= FEW:
        return words
    said, height, frames = [], 0, 0
    for word in [*words, None]:
        parts = word and SOUND.fullmatch(word)
        count = parts and int(parts[2] or 1)
        if frames and (parts is None or count >= LONG):
            said.append(f"~{height}x{frames}")
            height = frames = 0
        if parts and count >= LONG:
            said.append(word)
        elif parts:
            height, frames = max(height, level(parts[1])), frames + count
    return said


def short_hex(words):
    count = sum(len(piece) // 2 * int(times or 1) for piece, _, times in (word.partition("x") for word in words))
    return words if len(words) <= FEW else [f"({count} bytes)"]


def short_line(line):
    for shape, make in ((FRAMES, short_sound), (DATA, short_sound), (HEX, short_hex)):
        parts = shape.fullmatch(line)
        if parts:
            return " ".join([parts[1], *make(parts[2].split())])
    return line


def short(text):
    """The text with each line in one piece, and long sounds and bytes as how much there is of them."""
    lines = text.replace(" \\\n    ", " ").split("\n")
    return "\n".join(map(short_line, lines))
