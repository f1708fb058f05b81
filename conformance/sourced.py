"""Rows of conformance/live with the word `--source` of `serve`, the name of a default source: what clients are told of it,
and the programs that crash where there is none."""

import glob
import os
import shutil
import subprocess

from asking import agree
from client import RATE, SERVER_INFO, Client
from controlled import sink_volume
from records import Records
from served import PATIENCE, Served, tone, wav

NAMED = ("--source", "out.monitor")
LONGEST = "!" + 62 * "x" + "~"  # the longest name, of the first and the last byte that a name may have
# the server's name and version, the user's and the host's, the default sink's samples and name; no cookie, and left and right
BEFORE = b"tpulse_rw\0t1\0tpulse\0tlocalhost\0a\x03\x02\0\0\xbb\x80tout\0"
AFTER = {13: b"L\0\0\0\0", 18: b"L\0\0\0\0m\x02\x01\x02"}


def told_at(served, version):
    """The server's info, as it is told a client of this version."""
    with Client(served.socket, PATIENCE, version) as client:
        client.enter(served.cookie)
        return client.ask(SERVER_INFO).packet


def tells(program, folder, source, *words):
    """A server with these words tells clients of both versions this default source."""
    os.mkdir(folder)
    served = Served(program, folder, 2, ["out"], *words)
    found = {version: told_at(served, version) for version in AFTER}
    good = agree(found, {version: BEFORE + source + after for version, after in AFTER.items()})
    return agree(served.ended(), (0, "")) and good


def source_named(program, folder):
    """With the word the default source has its name, up to the longest one, and without it none."""
    rows = [(b"N",), (b"tout.monitor\0", *NAMED), (b"t" + LONGEST.encode() + b"\0", "--source", LONGEST)]
    return all([tells(program, os.path.join(folder, str(at)), *row) for at, row in enumerate(rows)])


def source_misnamed(program, folder):
    """What is no name is refused as other words are: none, one of 65 bytes, and bytes below `!` and above `~`; and what looks like an option."""
    good = True
    for name in ("", LONGEST + "x", "a b", "a\x7f", "\u00e9", "-a"):
        words = ["serve", "--header", "h", "--socket", "s", "--out", "o", "--accept", "1", "--source", name]
        said = subprocess.run([program, *words], cwd=folder, capture_output=True, timeout=PATIENCE, text=True)
        good = agree((name, said.returncode, said.stdout, said.stderr[:17]), (name, 2, "", "pulse_rw: usage: ")) and good
    return good


def source_taped(program, folder):
    """A tape doesn't have the name: it replays to what was played, and to infos without a default source."""
    sound = tone(RATE // 4, 2)
    served = Served(program, folder, 2, ["out"], *NAMED, "--tape")
    live = told_at(served, 18)
    served.play("out", sound)
    if not agree((served.ended(), live), ((0, ""), BEFORE + b"tout.monitor\0" + AFTER[18])):
        return False
    came = served.replayed() or b""
    infos = [record for record in Records(came, served.session().sinks) if record[0] == 1 and BEFORE in record[2]]
    told = [record[2].partition(BEFORE)[2] for record in infos]
    return agree(told, [b"N" + AFTER[18]]) and served.replayed("--raw", "out") == served.played("out") and sound in served.played("out")


def by_pamixer(program, folder):
    """pamixer sets and tells the default sink's volume, and lists the sinks, where a default source is named."""
    served = Served(program, folder, 4, ["out"], *NAMED)
    said = [served.client("pamixer", *words, text=True) for words in (("--set-volume", "50"), ("--get-volume",), ("--list-sinks",))]
    with Client(served.socket, PATIENCE) as client:
        client.enter(served.cookie)
        volume = sink_volume(client, 0)
    told = [(it.returncode, it.stdout) for it in said]
    # a sink's index, its name, its state, of which 0 is that it runs, and its description
    wanted = [(0, ""), (0, "50\n"), (0, 'Sinks:\n0 "out" "Running" "out"\n')]
    return agree((told, volume), (wanted, [32_768] * 2)) and served.ended() == (0, "")


def ffplay(served, sound):
    """ffplay with SDL's library plays a sound, without a window. It hangs up without waiting for what it buffered, which is silence here."""
    served.environment["SDL_AUDIODRIVER"] = "pulseaudio"
    song = served.file("song.wav", wav(sound + bytes(2 * len(sound)), 2))
    return served.client("ffplay", "-nodisp", "-autoexit", "-loglevel", "error", song, stdin=subprocess.DEVNULL).returncode


def by_ffplay(program, folder):
    """ffplay plays a WAV where a default source is named."""
    sound = tone(RATE // 2, 2)
    served = Served(program, folder, 16, ["out"], *NAMED)
    return agree((ffplay(served, sound), served.ended_at_last()), (0, (0, ""))) and sound in served.played("out")


def pamixer_without(program, folder):
    """pamixer 1.6 ends by a signal where no default source is named, and the server goes on."""
    served = Served(program, folder, 2, ["out"])
    return agree([served.client("pamixer", word).returncode for word in ("--get-volume", "--list-sinks")], [-11, -11]) and served.ended() == (0, "")


def ffplay_without(program, folder):
    """ffplay with SDL 2.26 ends by a signal where no default source is named, and the server goes on."""
    served = Served(program, folder, 16, ["out"])
    return agree((ffplay(served, tone(RATE // 2, 2)), served.ended_at_last()), (-11, (0, "")))


def has_source(program):
    """Whether a program has the word `--source`: its words are right then, and a file is missing."""
    words = ["serve", "--header", "/dev/null/none", "--socket", "none", "--out", "none", "--accept", "1", *NAMED]
    return subprocess.run([program, *words], capture_output=True, timeout=PATIENCE).returncode == 7


def crashes_without():
    """The rows of programs that crash without a default source, which later versions of them don't."""
    asked = subprocess.run(["pamixer", "--version"], capture_output=True, text=True).stdout if shutil.which("pamixer") else ""
    pamixer = [pamixer_without] if asked.split()[-1:] == ["1.6"] else []
    return pamixer + ([ffplay_without] if shutil.which("ffplay") and glob.glob("/usr/lib/*/libSDL2-2.0.so.0.2600.*") else [])


ROWS = (source_named, source_misnamed, source_taped)
MORE = {by_pamixer: ["pamixer"], by_ffplay: ["ffplay"]}
