"""The words of a session's text: quotes, numbers, bytes in hexadecimal, and samples."""

import re

NONE = 0xFFFFFFFF  # no index, or a number that the server is to choose
LONGEST = 16_777_216  # bytes of a frame, and so of what one line may say


class Wrong(Exception):
    """What is wrong with a text, a session or an output."""


WORD = re.compile(r'(?:[^\s"]|"(?:[^"\\]|\\.)*")+')
PART = re.compile(r'"((?:[^"\\]|\\.)*)"|([^"]+)')
ESCAPE = re.compile(r'\\(x[0-9a-fA-F]{2}|.)')
QUOTED = re.compile(r'"(?:[^"\\]|\\.)*"')
PLAIN = re.compile(r"[A-Za-z0-9_.@/+-]+")
PROPERTY = re.compile(r'((?:[^"=:]|"(?:[^"\\]|\\.)*")*)([=:])(.*)', re.DOTALL)
HEX = re.compile(r"((?:[0-9a-fA-F]{2})+)(?:x([0-9]{1,9}))?")
SAMPLES = re.compile(r"(-?[0-9]{1,12}(?:/-?[0-9]{1,12})*)(?:x([0-9]{1,9}))?")


def words_of(line):
    """The words of a line, without its comment; quotes and escapes stay in them."""
    if '"' not in line and "#" not in line:
        return line.split()
    found, at = [], 0
    while True:
        while at < len(line) and line[at].isspace():
            at += 1
        if at == len(line) or line[at] == "#":
            return found
        word = WORD.match(line, at)
        if word is None or (word.end() < len(line) and not line[word.end()].isspace()):
            raise Wrong("a quote isn't closed")
        found.append(word.group())
        at = word.end()


class Words:
    """The words of one line, taken from front to end."""

    def __init__(self, words):
        self.words = words
        self.at = 0

    def peek(self):
        return self.words[self.at] if self.at < len(self.words) else None

    def take(self, what):
        if self.at == len(self.words):
            raise Wrong(f"the line ends where {what} should stand")
        self.at += 1
        return self.words[self.at - 1]

    def rest(self):
        """All words that are left, which are then taken."""
        left, self.at = self.words[self.at :], len(self.words)
        return left

    def takes(self, word):
        """Whether the next word is this one; it is then taken."""
        if self.peek() != word:
            return False
        self.at += 1
        return True

    def wants(self, word):
        if not self.takes(word):
            raise Wrong(f"{self.peek() or 'the end of the line'} stands where {word} should")

    def end(self):
        if self.peek() is not None:
            raise Wrong(f"{self.peek()} is too much here")


def unquoted(word):
    """The bytes that a word says."""
    said = bytearray()
    for part in PART.finditer(word):
        if part.group(2) is not None:
            said += part.group(2).encode()
            continue
        quoted, at = part.group(1), 0
        for escape in ESCAPE.finditer(quoted):
            said += quoted[at : escape.start()].encode()
            at = escape.end()
            if len(escape.group(1)) == 3:
                said.append(int(escape.group(1)[1:], 16))
            elif escape.group(1) in '"\\':
                said += escape.group(1).encode()
            else:
                raise Wrong(f"{escape.group()} is no escape: there are \\\", \\\\ and \\xNN")
        said += quoted[at:].encode()
    return bytes(said)


def quoted(data):
    """The word that says these bytes."""
    text = data.decode("utf-8", "surrogateescape")
    if PLAIN.fullmatch(text):
        return text
    said = []
    for letter in text:
        if letter in '"\\':
            said.append("\\" + letter)
        elif letter.isprintable():
            said.append(letter)
        else:
            said += [f"\\x{byte:02x}" for byte in letter.encode("utf-8", "surrogateescape")]
    return '"' + "".join(said) + '"'


def number_of(word, what, least=0, most=NONE):
    """The number of a word: decimal, hexadecimal after `0x`, or `none` for the last 32-bit number."""
    if word == "none" and most == NONE:
        return NONE
    if not re.fullmatch(r"-?[0-9]{1,20}|0x[0-9a-fA-F]{1,16}", word):
        raise Wrong(f"{what} is a number, which {word} isn't")
    number = int(word, 16 if word.startswith("0x") else 10)
    if not least <= number <= most:
        raise Wrong(f"{what} is from {least} to {most}, and {word} isn't")
    return number


def number_word(number):
    return "none" if number == NONE else str(number)


def hex_of(words):
    """The bytes of the next words that are hexadecimal; `00x256` is a run of 256 bytes."""
    said = bytearray()
    while words.peek() is not None:
        part = HEX.fullmatch(words.peek())
        if part is None:
            break
        piece, count = bytes.fromhex(part.group(1)), int(part.group(2) or 1)
        if count < 1 or len(said) + len(piece) * count > LONGEST + 20:
            raise Wrong(f"{words.peek()} is no bytes, or too many")
        said += piece * count
        words.at += 1
    return bytes(said)


RUN = re.compile(rb"(.)\1{15,}", re.DOTALL)


def hex_words(data):
    """The words that say these bytes: at most 32 bytes a word, and runs of 16 or more as runs."""
    said, at = [], 0
    for run in RUN.finditer(data):
        said += hex_pieces(data[at : run.start()])
        said.append(f"{run.group(1).hex()}x{run.end() - run.start()}")
        at = run.end()
    return said + hex_pieces(data[at:])


def hex_pieces(data):
    return [data[at : at + 32].hex() for at in range(0, len(data), 32)]


WIDTH = 110


def line_of(words):
    """One line of these words, broken with a backslash where it is long."""
    lines, row = [], ""
    for word in words:
        if row and len(row) + 1 + len(word) > WIDTH:
            lines.append(row)
            row = "    " + word
        else:
            row = row + " " + word if row else word
    lines.append(row)
    return " \\\n".join(lines) + "\n"


def lines_of(text):
    """The lines of a text with their numbers; a line that ends with a backslash goes on in the next."""
    held, first = "", 0
    for number, line in enumerate(text.split("\n"), 1):
        first = first if held else number
        if line.rstrip().endswith("\\") and not (held + line).lstrip().startswith("#"):
            held += line.rstrip()[:-1] + " "
            continue
        yield first, held + line
        held = ""
    if held:
        yield first, held
