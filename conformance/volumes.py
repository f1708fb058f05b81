"""Flat volumes, reckoned slowly and plainly: the loudest input sets a sink's real volume."""

NORM, MOST = 0x10000, 0x7FFFFFFF


def multiply(a, b):
    return min((a * b + NORM // 2) // NORM, MOST)


def divide(a, b):
    return min((a * NORM + b // 2) // b, MOST) if b else 0


def cube(volume):
    return min((volume**3 + (1 << 31)) >> 32, MOST)


def ratio_after(ratio, volume, base):
    """A ratio stays where there is no base, or where it gives the volume already."""
    return ratio if base == 0 or multiply(ratio, base) == volume else divide(volume, base)


def widened(volume, channels):
    return list(volume) * channels if len(volume) == 1 else list(volume)


class Member:
    """An input: its volume and both ratios, one a channel of its stream."""

    def __init__(self, volume, muted, feed):
        channels = max(feed) + 1
        self.volume, self.muted, self.feed = widened(volume, channels), muted, feed
        self.to_reference = [NORM] * channels
        self.to_real = [NORM] * channels

    def fed(self, volumes):
        """A sink's volumes as the stream's channels have them: the greatest over the sink's channels that each feeds."""
        return [max(volume for volume, channel in zip(volumes, self.feed) if channel == own) for own in range(len(self.volume))]


class Group:
    """The volumes of a sink, a number for each channel, and of its inputs."""

    def __init__(self, channels):
        self.reference, self.muted, self.members = [NORM] * channels, False, {}

    def real(self):
        if not self.members:
            return list(self.reference)
        return [max(member.volume[member.feed[s]] for member in self.members.values()) for s in range(len(self.reference))]

    def follow(self):
        real = self.real()
        for member in self.members.values():
            member.to_real = [ratio_after(*it) for it in zip(member.to_real, member.volume, member.fed(real))]
            for ratio, volume, loudest in zip(member.to_real, member.volume, member.fed(real)):
                assert loudest > NORM or abs(multiply(ratio, loudest) - volume) <= 1, "a ratio isn't true to its volume"

    def settle(self):
        self.reference = [max(pair) for pair in zip(self.reference, self.real())]
        for member in self.members.values():
            member.to_reference = [ratio_after(*it) for it in zip(member.to_reference, member.volume, member.fed(self.reference))]
        self.follow()

    def attach(self, number, volume, muted, feed, relative):
        """An input whose volume is as it is given, or that much of the reference volume."""
        member = self.members[number] = Member(volume, muted, feed)
        if relative:
            member.volume = [multiply(*pair) for pair in zip(member.volume, member.fed(self.reference))]
        self.settle()

    def join(self, number, member, feed):
        """An input of another group: its ratios stay, and its volume is what they make of the reference volume here."""
        self.members[number], member.feed = member, feed
        member.volume = [multiply(*pair) for pair in zip(member.to_reference, member.fed(self.reference))]
        self.settle()

    def detach(self, number):
        del self.members[number]
        self.follow()

    def set_input(self, number, volume):
        member = self.members[number]
        member.volume = widened(volume, len(member.volume))
        self.settle()

    def set_sink(self, volume):
        self.reference = widened(volume, len(self.reference))
        for member in self.members.values():
            member.volume = [multiply(*pair) for pair in zip(member.to_reference, member.fed(self.reference))]
        self.follow()

    def factors(self, *numbers):
        """Those of each of these inputs, one a channel of the sink."""
        real, of = self.real(), {}
        for number in numbers:
            member = self.members[number]
            silent = self.muted or member.muted
            of[number] = [0 if silent else cube(multiply(member.to_real[channel], loudest)) for channel, loudest in zip(member.feed, real)]
        return of
