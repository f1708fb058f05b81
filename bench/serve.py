#!/usr/bin/env python3
"""What serving costs, beside PulseAudio where it is installed: processor seconds and resident memory of the server alone, one server after the
other in each round.

  bench/serve.py [--program FILE] [--beside FILE] [--rounds N] [--seconds N] [--nowhere] [--counted] [KIND..]

KIND is one of
  N       N clients play at once: pacat at 100 ms of latency, 16 bits, stereo, 48,000 frames a second; past 32 on a second sink of PulseAudio's
  slow    8 clients play at two seconds of latency, so that they ask for nothing most of the time
  idle    32 clients that only listen for events, once they are there
  sinks   16 sinks and no client
  long    32 clients play for two minutes: the memory after 13 seconds, after 60 and at the end
  links   64 clients come and go 100 times: the memory after the first time, the tenth and the last
sinks, 1, 8 and 32, each for 10 seconds and once, where nothing else is said. Told are the median of the rounds, the least and the most, the
machine's load, and of the memory the median of what was there at the end. --beside has another build of the program play in turn with the first.
This server plays into a file that takes memory alone, or with --nowhere into the null device. Its guard and depth are a hundredth and a tenth of
a second. --counted tells instructions in place of seconds, by valgrind's callgrind, under which all is slower. It wants pacat and pactl (Debian:
pulseaudio-utils) and, for the other server, pulseaudio."""

import math
import os
import re
import shutil
import signal
import statistics
import struct
import subprocess
import sys
import tempfile
import time

sys.dont_write_bytecode = True
HERE = os.path.dirname(os.path.realpath(__file__))
TOP = os.path.dirname(HERE)
PROGRAM = os.path.join(TOP, "crates", "pulse_rw", "out", "pulse_rw")
RATE = 48_000
SHARED = 32  # clients of one sink of PulseAudio's
SONGS = 8  # files with sounds, which the clients share
# where a file takes memory alone, so that no disk is timed
PLACE = "/dev/shm" if os.path.isdir("/dev/shm") else None
COUNTED = ["valgrind", "--tool=callgrind", "--callgrind-out-file=/dev/null"]
PLAY = ["pacat", "--playback", "--raw", "--format=s16le", "--channels=2", f"--rate={RATE}"]


class Server:
    """A server under way with sinks `out`, `out1` .. in a folder of its own; `words` start it where it is to listen at `socket`."""

    def __init__(self, words, folder, socket, environment, counted):
        self.folder, self.environment = folder, dict(environment, PULSE_SERVER=f"unix:{socket}")
        self.log = os.path.join(folder, "log")
        with open(self.log, "wb") as log:
            self.process = subprocess.Popen(COUNTED * counted + words, env=environment, stdout=subprocess.DEVNULL, stderr=log)
        until = time.monotonic() + 60
        while not os.path.exists(socket) and self.process.poll() is None and time.monotonic() < until:
            time.sleep(0.02)
        time.sleep(0.5)
        self.before = self.spent()  # processor seconds that aren't counted

    def spent(self):
        """Processor seconds of the threads that are there."""
        tasks, spent = f"/proc/{self.process.pid}/task", 0
        for task in os.listdir(tasks):
            with open(f"{tasks}/{task}/schedstat", encoding="ascii") as file:
                spent += int(file.read().split()[0])
        return spent / 1e9

    def resident(self):
        """Its resident memory, in MB."""
        with open(f"/proc/{self.process.pid}/status", encoding="ascii") as file:
            return next(int(line.split()[1]) for line in file if line.startswith("VmRSS:")) / 1024

    def end(self):
        """Ends it, and answers the processor seconds that are counted."""
        for sent, seconds in ((signal.SIGTERM, 10), (signal.SIGKILL, 10)):
            os.kill(self.process.pid, sent)
            until = time.monotonic() + seconds
            while time.monotonic() < until:
                ended, status, usage = os.wait4(self.process.pid, os.WNOHANG)
                if ended:
                    self.process.returncode = os.waitstatus_to_exitcode(status)
                    return usage.ru_utime + usage.ru_stime - self.before
                time.sleep(0.01)
        raise TimeoutError("a server doesn't end")

    def instructions(self):
        """What callgrind counted."""
        with open(self.log, encoding="utf-8", errors="replace") as log:
            return int(re.findall(r"Collected : (\d+)", log.read())[-1])


def tone(frames, pitch):
    samples = (round(2_000 * math.sin(2 * math.pi * pitch * frame / RATE)) for frame in range(frames) for _ in range(2))
    return struct.pack(f"<{2 * frames}h", *samples)


def ours(folder, program, sinks, clients, nowhere, counted):
    """This server, for `clients` clients at once and one place more, so that it is there when they have gone."""
    if nowhere:
        for sink in sinks:
            os.symlink(os.devnull, os.path.join(folder, f"{sink}.raw"))
    cookie, header, socket = (os.path.join(folder, name) for name in ("cookie", "desk.hdr", "pulse.sock"))
    with open(cookie, "wb") as file:
        file.write(os.urandom(256))
    with open(header, "wb") as file:
        subprocess.run([sys.executable, "-B", os.path.join(TOP, "tools", "header.py"), "--cookie", cookie, *sinks], stdout=file, check=True)
    words = [program, "serve", "--header", header, "--socket", socket, "--out", folder, "--accept", str(clients + 1)]
    return Server(words, folder, socket, dict(os.environ, HOME=folder, PULSE_COOKIE=cookie), counted)


def theirs(folder, sinks, counted):
    """PulseAudio with sinks that play nowhere by the system's clock."""
    socket = os.path.join(folder, "other.sock")
    words = ["pulseaudio", "-n", "--daemonize=no", "--exit-idle-time=-1", "--use-pid-file=no", "--disable-shm=yes", "--log-level=error"]
    for sink in sinks:
        words += ["-L", f"module-null-sink sink_name={sink} rate={RATE} channels=2 format=s16le"]
    words += ["-L", f"module-native-protocol-unix auth-anonymous=1 socket={socket}"]
    # with the variable set, as it sets it, it doesn't begin anew beyond callgrind's reach
    place = dict(os.environ, HOME=folder, XDG_RUNTIME_DIR=folder, XDG_CONFIG_HOME=folder, LD_BIND_NOW="1")
    return Server(words, folder, socket, place, counted)


def begun(server, kind, clients, seconds, sinks):
    """The clients of this kind, under way."""
    quiet = {"env": server.environment, "stdout": subprocess.DEVNULL, "stderr": subprocess.DEVNULL}
    if kind == "idle":
        return [subprocess.Popen(["pactl", "subscribe"], **quiet) for _ in range(clients)]
    songs = [os.path.join(server.folder, f"song{at}") for at in range(min(SONGS, clients))]
    for at, song in enumerate(songs):
        with open(song, "wb") as file:
            file.write(tone(RATE, 200 + 10 * at) * seconds)
    latency = f"--latency-msec={2_000 if kind == 'slow' else 100}"
    started = []
    for at in range(clients):
        device = f"--device={sinks[at // SHARED % len(sinks)]}"
        started.append(subprocess.Popen([*PLAY, latency, device, songs[at % SONGS]], **quiet))
    return started


def measured(server, kind, clients, seconds, sinks):
    """The server's memory in MB by the second, while these clients are there, and whether none failed. Where none plays, it is counted once all
    have been there for a while."""
    under_way, memory = begun(server, kind, clients, seconds, sinks), []
    plays = bool(under_way) and kind != "idle"
    if not plays:
        # what it costs that they come is left out
        time.sleep(2)
        server.before = server.spent()
    start = time.monotonic()
    while any(client.poll() is None for client in under_way) if plays else time.monotonic() < start + seconds:
        memory.append((time.monotonic() - start, server.resident()))
        time.sleep(0.1)
    good = all(client.returncode == 0 for client in under_way) if plays else all(client.poll() is None for client in under_way)
    for client in under_way:
        if client.poll() is None:
            client.kill()
        client.wait()
    return memory, good


def one_run(name, program, kind, options):
    """Seconds or instructions, the memory by the second, and whether no client failed."""
    clients = {"slow": 8, "idle": 32, "sinks": 0, "long": 32}.get(kind) if not kind.isdecimal() else int(kind)
    seconds = 120 if kind == "long" else options["--seconds"]
    counted = options["--counted"]
    with tempfile.TemporaryDirectory(dir=PLACE) as folder:
        if program:
            sinks = [f"out{at or ''}" for at in range(16 if kind == "sinks" else 1)]
            server = ours(folder, program, sinks, clients, options["--nowhere"], counted)
        else:
            sinks = [f"out{at or ''}" for at in range(16 if kind == "sinks" else max(1, -(-clients // SHARED)))]
            server = theirs(folder, sinks, counted)
        memory, good = measured(server, kind, clients, seconds, sinks)
        spent = server.end()
        return server.instructions() / 1e6 if counted else spent, memory, good


def at_second(memory, second):
    """The memory at a second, or at the last that is there."""
    return next((size for moment, size in memory if moment >= second), memory[-1][1])


def told(kind, name, runs, counted):
    figures = [spent for spent, _, _ in runs]
    unit = "million instructions" if counted else "processor seconds"
    size = [statistics.median(at_second(memory, second) for _, memory, _ in runs) for second in ((13, 60, 1e9) if kind == "long" else (1e9,))]
    most = statistics.median(max(size for _, size in memory) for _, memory, _ in runs)
    failed = sum(not good for _, _, good in runs)
    spread = f" ({min(figures):.3f} to {max(figures):.3f})" if len(figures) > 1 else ""
    print(f"{kind:>5}  {name:10}  {statistics.median(figures):7.3f}{spread} {unit}  {', '.join(f'{it:.1f}' for it in size)} MB at the end, {most:.1f} at most"
          f"{f'  {failed} runs in which a client failed' if failed else ''}", flush=True)


def links(program):
    with tempfile.TemporaryDirectory(dir=PLACE) as folder:
        server = ours(folder, program, ["out"], 6_500, False, False)
        for turn in range(1, 101):
            quiet = {"env": server.environment, "stdout": subprocess.DEVNULL, "stderr": subprocess.DEVNULL}
            clients = [subprocess.Popen(["pactl", "info"], **quiet) for _ in range(64)]
            failed = sum(client.wait() != 0 for client in clients)
            if turn in (1, 10, 100):
                time.sleep(1)
                print(f"64 clients came and went {turn:3} times: {server.resident():6.1f} MB, {failed} of the last failed", flush=True)
        server.end()


def read_words(words):
    """The options by name and the kinds; None where a word is neither."""
    options = {"--program": PROGRAM, "--beside": None, "--rounds": 1, "--seconds": 10, "--nowhere": False, "--counted": False}
    kinds, words = [], list(words)
    while words:
        word = words.pop(0)
        if word in ("--nowhere", "--counted"):
            options[word] = True
        elif word in options and words:
            value = words.pop(0)
            if word in ("--rounds", "--seconds") and not value.isdecimal():
                return None
            options[word] = int(value) if word in ("--rounds", "--seconds") else os.path.realpath(value)
        elif word.isdecimal() or word in ("slow", "idle", "sinks", "long", "links"):
            kinds.append(word)
        else:
            return None
    return options, kinds or ["sinks", "1", "8", "32"]


def main(words):
    said = read_words(words)
    if said is None:
        print(__doc__, file=sys.stderr)
        return 2
    if shutil.which("pacat") is None:
        print("bench/serve.py: no pacat here")
        return 0
    options, kinds = said
    servers = {"pulse_rw": options["--program"]}
    if options["--beside"]:
        servers["beside"] = options["--beside"]
    if shutil.which("pulseaudio"):
        servers["PulseAudio"] = None
    for kind in kinds:
        if kind == "links":
            links(options["--program"])
            continue
        runs = {name: [] for name in servers}
        for _ in range(options["--rounds"]):
            for name, program in servers.items():
                runs[name].append(one_run(name, program, kind, options))
        print(f"{kind}: {options['--rounds']} rounds, load {' '.join(f'{load:.1f}' for load in os.getloadavg())}", flush=True)
        for name in servers:
            told(kind, name, runs[name], options["--counted"])
    return 0


if __name__ == "__main__":
    sys.exit(main(sys.argv[1:]))
