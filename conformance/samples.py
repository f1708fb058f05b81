"""What samples are worth in a mix, and which channel of a stream feeds which of its sink, by the rules of docs.

The formats are known by their codes in PulseAudio's `sample.h`; a sample that is mixed is a whole number of 8, 16 or 32 bits."""

ALAW, ULAW = 1, 2
SIZES = {0: 1, 1: 1, 2: 1, 3: 2, 4: 2, 7: 4, 8: 4, 9: 3, 10: 3, 11: 4, 12: 4}
WIDTHS = {0: 8, 1: 16, 2: 16, 3: 16, 4: 16, 7: 32, 8: 32, 9: 32, 10: 32, 11: 32, 12: 32}
BACKWARDS = (3, 7, 9, 11)  # the least significant byte first
SINKS = (0, 3, 4, 7, 8, 9, 10, 11, 12)
STREAMS = tuple(SIZES)


def of_mu_law(byte):
    byte ^= 0xFF
    size = (((byte & 15) << 3) + 132 << ((byte & 0x70) >> 4)) - 132
    return -size if byte & 0x80 else size


def of_a_law(byte):
    byte ^= 0x55
    part, step = (byte & 0x70) >> 4, (byte & 15) << 4
    size = step + 8 if part == 0 else step + 0x108 << part - 1
    return size if byte & 0x80 else -size


def value_of(code, sample):
    """The number of a sample, at its format's own width."""
    if code == ALAW:
        return of_a_law(sample[0])
    if code == ULAW:
        return of_mu_law(sample[0])
    number = int.from_bytes(sample, "little" if code in BACKWARDS else "big")
    if code == 0:
        return number - 128
    if code > 8:
        number = number % (1 << 24) << 8
    bits = WIDTHS[code]
    return number - (1 << bits) if number >> bits - 1 else number


def sample_of(code, value):
    """The bytes of a number of that width."""
    if code == 0:
        return bytes([value + 128])
    number = value % (1 << WIDTHS[code])
    return (number >> 8 if code > 8 else number).to_bytes(SIZES[code], "little" if code in BACKWARDS else "big")


def brought(value, width, other):
    """A number of one width at another; what has no room rounds down."""
    return value << other - width if other > width else value >> width - other


def frames_of(code, channels, sound):
    """The numbers of each frame."""
    size = SIZES[code]
    values = [value_of(code, sound[at : at + size]) for at in range(0, len(sound), size)]
    return [values[at : at + channels] for at in range(0, len(values), channels)]


def plan(stream, sink, no_remap, no_remix):
    """The stream's channel for each of the sink's, from their maps; None where nothing is planned."""
    if stream == sink or no_remap and len(stream) == len(sink):
        return list(range(len(sink)))
    if len(set(stream)) == len(stream) and len(set(sink)) == len(sink) and set(stream) == set(sink):
        return [stream.index(position) for position in sink]
    return [0] * len(sink) if len(stream) == 1 and not no_remix else None
