"""What the server answers each command, and what that changes: streams, moves, volumes, names, infos and property lists."""

import infos
import samples
import volumes
import wire
from mixer import Stream
from packets import NEWEST, OLDEST, fields_at
from words import NONE

WORD = (1 << 32) - 1
KILLED = 64  # the message to a stream's client
CONTROLS = ("drain", "latency", "cork", "flush", "trigger", "prebuf", "attributes")


def eight(mark, value):
    """An item of eight bytes."""
    return mark + (value % (1 << 64)).to_bytes(8, "big")


def usec(value):
    return eight(b"U", value)


class Handlers:
    """The commands of a server, a method each: `do_WORD` takes the connection, the tag and the values of its fields."""

    def nothing(self, conn, tag, values):
        self.send(conn, 2, tag)

    def do_auth(self, conn, tag, values):
        if self.clients[conn].known:
            return self.error(conn, tag, 15)
        if values[0] & 0xFFFF < OLDEST:
            return self.error(conn, tag, 17)
        if values[1] != self.cookie:
            return self.error(conn, tag, 1)
        self.clients[conn].known, self.clients[conn].version = True, min(values[0] & 0xFFFF, NEWEST)
        return self.send(conn, 2, tag, wire.number(NEWEST))

    def do_name(self, conn, tag, values):
        client = self.clients[conn]
        client.properties = infos.updated(infos.REPLACE, client.properties, values[0])
        self.send(conn, 2, tag, wire.number(client.number))

    def repaired(self, spec, asked):
        """The attributes that a stream asks for, in bytes: maxlength, tlength, prebuf, minreq; and in frames."""
        size, rate = wire.frame_size(spec), spec[2]
        whole = lambda count: max(count // size * size, size)
        maxlength = whole(min(asked["maxlength"], 4_194_304))
        tlength = min(whole(2 * rate * size if asked["tlength"] == WORD else asked["tlength"]), maxlength)
        minreq = min(whole(rate * 20 // 1000 * size if asked["minreq"] == WORD else asked["minreq"]), tlength)
        most = tlength + size - minreq
        prebuf = most if asked["prebuf"] == WORD else min(-(-asked["prebuf"] // size) * size, most)
        return [maxlength, tlength, prebuf, minreq], [length // size for length in (maxlength, tlength, prebuf, minreq)]

    def latency(self, sink):
        return usec(sink.spec.depth * 1_000_000 // sink.spec.spec[2])

    def cannot_be(self, spec, positions, volume):
        """What a stream asks for can't be."""
        code, channels, rate = spec
        return (
            code > 12 or not 1 <= channels <= 32 or not 1 <= rate <= 192_000
            or len(positions) != channels or max(positions) > 50
            or len(volume) not in (1, channels) or max(volume) > 0x7FFFFFFF
        )

    def asked(self, conn, word, values):
        """The values of a packet's fields by their names; what stands last under no name is a property list."""
        return dict(zip((name for name, _, _ in fields_at(word, self.clients[conn].version)), values))

    def do_create(self, conn, tag, values):
        asked = self.asked(conn, "create", values)
        (code, channels, rate), positions = values[0], list(asked["map"])
        clear, place = self.named(asked["index"], asked["sink"], fallback=True)
        if self.cannot_be(values[0], positions, asked["volume"]) or not clear:
            return self.error(conn, tag, 3)
        if place is None:
            return self.error(conn, tag, 5)
        sink = place.spec
        code = sink.spec[0] if asked["fix_format"] else code
        rate = sink.spec[2] if asked["fix_rate"] else rate
        if asked["fix_channels"]:
            channels, positions = sink.spec[1], list(sink.positions)
        feed = samples.plan(positions, list(sink.positions), asked["no_remap"], asked["no_remix"])
        if code in (5, 6) or asked["variable_rate"] or rate != sink.spec[2] or asked.get("passthrough") or feed is None:
            return self.error(conn, tag, 19)
        going = [stream for stream in self.inputs.values() if not stream.leaving]
        if self.bound_for(place) >= 256 or len(going) >= 1024:
            return self.error(conn, tag, 18)
        spec = (code, channels, rate)
        lengths, frames = self.repaired(spec, asked)
        client, number = self.clients[conn], self.input_count
        stream = Stream(conn, client.made, place, spec, feed, frames, asked["corked"])
        self.inputs[number], client.streams[client.made] = stream, number
        stream.client, stream.positions, stream.properties, stream.told = client.number, positions, infos.listed(asked[None]), frames
        stream.no_move, stream.no_remap, stream.no_remix = (asked[flag] for flag in ("no_move", "no_remap", "no_remix"))
        numbers = [client.made, number, lengths[1], *lengths]
        self.input_count += 1
        client.made += 1
        volume, is_set = list(asked["volume"]), asked.get("volume_set", True)
        given = [volumes.NORM] if not is_set else volume if len(volume) in (1, channels) else [max(volume)]
        place.group.attach(number, given, asked["muted"], feed, not is_set or asked.get("relative_volume", False))
        stream.factors = place.group.factors(number)[number]
        place.waiting.append(("new", number, stream))
        self.regroup(place)
        fields = b"".join(map(wire.number, numbers)) + wire.spec(spec) + wire.channel_map(positions)
        fields += wire.number(place.number) + wire.text(sink.name) + wire.flag(False) + self.latency(place)
        return self.send(conn, 2, tag, fields)

    def do_stream(self, conn, tag, word, values):
        """A command of a stream, which its sink is told."""
        number = self.clients[conn].streams.get(values[0])
        if number is None:
            return self.error(conn, tag, 5)
        told, more, reply = word, None, b""
        if word in ("drain", "latency"):
            self.waiting.append((number, word, tag, *values[1:]))
            told, more, reply = ("drain" if word == "drain" else "query"), tag, None
        elif word == "attributes":
            asked = self.asked(conn, word, values)
            lengths, more = self.repaired(self.inputs[number].spec, asked)
            self.inputs[number].told = more
            reply = b"".join(map(wire.number, lengths)) + self.latency(self.inputs[number].sink)
        elif word == "cork":
            more = values[1]
        self.post(told, number, more)
        return None if reply is None else self.send(conn, 2, tag, reply)

    def sink_called(self, name):
        """The sink of a name, or None."""
        if name == b"@DEFAULT_SINK@":
            return self.fallback
        return next((sink for sink in self.sinks if sink.spec.name == name), None)

    def named(self, index, name, fallback=False):
        """Whether an index and a name together name one sink, and that sink, or None; the default sink may stand for neither."""
        if index == NONE and name is None:
            return fallback, self.fallback
        if index != NONE and name is not None:
            return False, None
        return True, self.sinks[index] if index < len(self.sinks) else self.sink_called(name)

    def going(self, number):
        """The stream of an input that is there and hasn't ended, or None."""
        stream = self.inputs.get(number)
        return None if stream is None or stream.leaving else stream

    def bound_for(self, sink):
        """How many inputs are on a sink or on their way to it, and stay there."""
        return sum((stream.moving or stream.sink) is sink for stream in self.inputs.values() if not stream.leaving)

    def do_move(self, conn, tag, values):
        stream, (clear, sink) = self.going(values[0]), self.named(*values[1:])
        if not clear or stream is None or sink is None:
            return self.error(conn, tag, 5 if clear else 3)
        if stream.moving:
            return self.error(conn, tag, 26)
        if sink is not stream.sink:
            fed = samples.plan(stream.positions, list(sink.spec.positions), stream.no_remap, stream.no_remix)
            if stream.no_move:
                return self.error(conn, tag, 3)
            if stream.spec[2] != sink.spec.spec[2] or fed is None:
                return self.error(conn, tag, 19)
            if self.bound_for(sink) >= 256:
                return self.error(conn, tag, 18)
            stream.sink.waiting.append(("gone", values[0], None))
            stream.moving = sink
        return self.send(conn, 2, tag)

    def set_volume(self, conn, tag, sink, channels, volume, moving, set_it):
        """A volume, on a sink that is there, of what has `channels` channels: one for all of them, or one each."""
        if not volume or max(volume) > 0x7FFFFFFF:
            return self.error(conn, tag, 3)
        if sink is None:
            return self.error(conn, tag, 5)
        if len(volume) not in (1, channels):
            return self.error(conn, tag, 3)
        if moving:
            return self.error(conn, tag, 26)
        set_it(volume)
        self.regroup(sink)
        return self.send(conn, 2, tag)

    def do_sink_volume(self, conn, tag, values):
        clear, sink = self.named(*values[:2])
        if not clear:
            return self.error(conn, tag, 3)
        channels = sink and sink.spec.spec[1]
        return self.set_volume(conn, tag, sink, channels, list(values[2]), None, lambda volume: sink.group.set_sink(volume))

    def do_volume(self, conn, tag, values):
        stream = self.going(values[0])
        sink, channels, moving = (stream.sink, stream.spec[1], stream.moving) if stream else (None, 0, None)
        return self.set_volume(conn, tag, sink, channels, list(values[1]), moving, lambda volume: sink.group.set_input(values[0], volume))

    def mute(self, conn, tag, sink, what, on):
        what.muted = on
        self.regroup(sink)
        return self.send(conn, 2, tag)

    def do_sink_mute(self, conn, tag, values):
        clear, sink = self.named(*values[:2])
        if not clear or sink is None:
            return self.error(conn, tag, 5 if clear else 3)
        return self.mute(conn, tag, sink, sink.group, values[2])

    def do_mute(self, conn, tag, values):
        stream = self.going(values[0])
        if stream is None or stream.moving:
            return self.error(conn, tag, 26 if stream else 5)
        return self.mute(conn, tag, stream.sink, stream.sink.group.members[values[0]], values[1])

    def do_lookup_sink(self, conn, tag, values):
        sink = self.sink_called(values[0])
        if sink is None:
            return self.error(conn, tag, 3 if values[0] is None else 5)
        return self.send(conn, 2, tag, wire.number(sink.number))

    def do_default_sink(self, conn, tag, values):
        sink = self.sink_called(values[0])
        if sink is None:
            return self.error(conn, tag, 3 if values[0] is None else 5)
        self.fallback = sink
        return self.send(conn, 2, tag)

    def do_server_info(self, conn, tag, values):
        return self.send(conn, 2, tag, infos.server_info(self.clients[conn].version, self.fallback.spec))

    def tell(self, conn, tag, there, info):
        """What is told of what is there."""
        return self.send(conn, 2, tag, info()) if there else self.error(conn, tag, 5)

    def inputs_there(self):
        """The inputs that haven't ended, in rising index."""
        return [number for number in sorted(self.inputs) if not self.inputs[number].leaving]

    def sink_info(self, conn, sink):
        return infos.sink_info(self.clients[conn].version, sink.number, sink.spec, sink.group)

    def input_info(self, number):
        stream = self.inputs[number]
        return infos.input_info(number, stream.sink.number, stream, stream.sink.group.members[number])

    def do_sink_info(self, conn, tag, values):
        clear, sink = self.named(*values)
        return self.tell(conn, tag, sink, lambda: self.sink_info(conn, sink)) if clear else self.error(conn, tag, 3)

    def do_sink_infos(self, conn, tag, values):
        self.send(conn, 2, tag, b"".join(self.sink_info(conn, sink) for sink in self.sinks))

    def do_input_info(self, conn, tag, values):
        self.tell(conn, tag, self.going(values[0]), lambda: self.input_info(values[0]))

    def do_input_infos(self, conn, tag, values):
        self.send(conn, 2, tag, b"".join(map(self.input_info, self.inputs_there())))

    def known_clients(self):
        """In rising index; one that was ended is none."""
        return {client.number: client for client in self.clients.values() if not client.ended}

    def do_client_info(self, conn, tag, values):
        clients = self.known_clients()
        self.tell(conn, tag, values[0] in clients, lambda: infos.client_info(clients[values[0]]))

    def do_client_infos(self, conn, tag, values):
        self.send(conn, 2, tag, b"".join(infos.client_info(client) for _, client in sorted(self.known_clients().items())))

    def do_subscribe(self, conn, tag, values):
        """A mask with a bit for each facility; what is told then, `announce` of the server says."""
        if values[0] & ~0x2FF:
            return self.error(conn, tag, 3)
        self.clients[conn].mask = values[0]
        return self.send(conn, 2, tag)

    # property lists

    def update(self, conn, tag, holder, mode, pairs):
        if holder is None:
            return self.error(conn, tag, 5)
        if mode > 2:
            return self.error(conn, tag, 3)
        holder.properties = infos.updated(mode, holder.properties, pairs)
        return self.send(conn, 2, tag)

    def remove(self, conn, tag, holder, keys):
        if holder is None or not set(keys) <= set(holder.properties):
            return self.error(conn, tag, 5)
        holder.properties = {key: value for key, value in holder.properties.items() if key not in keys}
        return self.send(conn, 2, tag)

    def stream(self, conn, number):
        return self.inputs.get(self.clients[conn].streams.get(number))

    def do_update_client(self, conn, tag, values):
        return self.update(conn, tag, self.clients[conn], *values)

    def do_remove_client(self, conn, tag, values):
        return self.remove(conn, tag, self.clients[conn], *values)

    def do_update_stream(self, conn, tag, values):
        return self.update(conn, tag, self.stream(conn, values[0]), *values[1:])

    def do_remove_stream(self, conn, tag, values):
        return self.remove(conn, tag, self.stream(conn, values[0]), *values[1:])

    def do_stream_name(self, conn, tag, values):
        stream, name = self.stream(conn, values[0]), values[1]
        if stream is not None and (name is None or len(name) > 65_535):
            return self.error(conn, tag, 3)
        return self.update(conn, tag, stream, infos.REPLACE, [(infos.STREAM_NAME, (name or b"") + b"\0")])

    def do_delete(self, conn, tag, values):
        number = self.clients[conn].streams.pop(values[0], None)
        if number is None:
            return self.error(conn, tag, 5)
        self.send(conn, 2, tag)
        for _, _, waited, *_ in self.drop(number):
            self.error(conn, waited, 5)
        return None

    # kills: who asks is answered first, also where it ends itself

    def do_kill_client(self, conn, tag, values):
        found = [number for number, client in self.clients.items() if client.number == values[0] and not client.ended]
        if not found:
            return self.error(conn, tag, 5)
        self.send(conn, 2, tag)
        return self.end(found[0], 3)

    def do_kill_input(self, conn, tag, values):
        stream = self.going(values[0])
        if stream is None:
            return self.error(conn, tag, 5)
        self.send(conn, 2, tag)
        del self.clients[stream.owner].streams[stream.number]
        for _, _, waited, *_ in self.drop(values[0]):
            self.error(stream.owner, waited, 5)
        return self.send(stream.owner, KILLED, NONE, wire.number(stream.number))
