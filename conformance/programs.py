"""Rows of conformance/live in which programs play or set volumes by PulseAudio's library, or by ALSA's plugin for it; and which of them are here."""

import glob
import shutil
import subprocess

from client import RATE
from served import Served, tone, wav

ALSA = b"pcm.pulse { type pulse }\n"


def served_to_alsa(program, folder, clients):
    """A server for as many clients, which find it by ALSA's plugin under the name `pulse`."""
    served = Served(program, folder, clients, ["out"])
    served.environment["ALSA_CONFIG_PATH"] = served.file("asound.conf", ALSA)
    return served


def by_sox(program, folder):
    """sox plays a WAV."""
    sound = tone(RATE // 2, 2)
    served = Served(program, folder, 1, ["out"])
    said = served.client("sox", "-q", served.file("song.wav", wav(sound, 2)), "-t", "pulseaudio", "out")
    return said.returncode == 0 and served.ended() == (0, "") and sound in served.played("out")


def by_ffmpeg(program, folder):
    """ffmpeg plays a WAV. It connects twice, and hangs up without waiting for what it buffered, which is silence here."""
    sound = tone(RATE // 2, 2)
    served = Served(program, folder, 2, ["out"])
    song = served.file("song.wav", wav(sound + bytes(len(sound)), 2))
    said = served.client("ffmpeg", "-nostdin", "-loglevel", "error", "-i", song, "-f", "pulse", "-device", "out", "-buffer_duration", "100", "song")
    return said.returncode == 0 and served.ended() == (0, "") and sound in served.played("out")


def by_aplay(program, folder):
    """aplay plays a WAV by ALSA's plugin."""
    sound = tone(RATE // 2, 2)
    served = served_to_alsa(program, folder, 1)
    said = served.client("aplay", "-q", "-D", "pulse", served.file("song.wav", wav(sound, 2)))
    return said.returncode == 0 and served.ended() == (0, "") and sound in served.played("out")


def by_gstreamer(program, folder):
    """GStreamer plays a WAV by ALSA's plugin, with a second of it ahead, so that a busy machine makes no gap."""
    sound = tone(RATE // 2, 2)
    served = served_to_alsa(program, folder, 1)
    song = served.file("song.wav", wav(sound, 2))
    said = served.client("gst-launch-1.0", "-q", "filesrc", f"location={song}", "!", "wavparse", "!", "alsasink", "device=pulse", "buffer-time=1000000")
    return said.returncode == 0 and served.ended() == (0, "") and sound in served.played("out")


def by_mpg123(program, folder):
    """mpg123 plays what it decodes of an MP3 by ALSA's plugin, which it opens several times. ffmpeg makes the MP3."""
    served = served_to_alsa(program, folder, 16)
    song, mp3 = served.file("song.wav", wav(tone(RATE // 2, 2), 2)), f"{folder}/song.mp3"
    made = served.client("ffmpeg", "-nostdin", "-loglevel", "error", "-i", song, mp3)
    sound = served.client("mpg123", "-q", "-s", mp3).stdout
    said = served.client("mpg123", "-q", "-o", "alsa", "-a", "pulse", mp3)
    good = (made.returncode, said.returncode) == (0, 0) and served.ended_at_last() == (0, "")
    return good and len(sound) >= 4 * (RATE // 2) and sound.strip(b"\0") in served.played("out")


def by_mplayer(program, folder):
    """mplayer plays a WAV."""
    sound = tone(RATE // 2, 2)
    served = Served(program, folder, 1, ["out"])
    song = served.file("song.wav", wav(sound, 2))
    said = served.client("mplayer", "-ao", "pulse", "-nolirc", "-noconfig", "all", "-really-quiet", song, stdin=subprocess.DEVNULL)
    return said.returncode == 0 and served.ended() == (0, "") and sound in served.played("out")


def by_pulsemixer(program, folder):
    """pulsemixer sets a sink's volume."""
    served = Served(program, folder, 2, ["out"])
    said = served.client("pulsemixer", "--id", "sink-0", "--set-volume", "50")
    told = served.client("pactl", "get-sink-volume", "out", text=True).stdout
    return said.returncode == 0 and "50%" in told and served.ended() == (0, "")


MORE = {
    by_sox: ["sox"],
    by_ffmpeg: ["ffmpeg"],
    by_aplay: ["aplay"],
    by_gstreamer: ["gst-launch-1.0"],
    by_mpg123: ["mpg123", "ffmpeg"],
    by_mplayer: ["mplayer"],
    by_pulsemixer: ["pulsemixer", "pactl"],
}
BY_ALSA = ("aplay", "gst-launch-1.0", "mpg123")
# what a client is asked, and what it then tells where it has what it needs
ASKED = {
    "sox": (["sox", "--help"], "pulse"),
    "ffmpeg": (["ffmpeg", "-hide_banner", "-devices"], "pulse"),
    "mplayer": (["mplayer", "-ao", "help"], "pulse"),
    "gst-launch-1.0": (["gst-inspect-1.0", "alsasink"], "alsasink"),
    "mpg123": (["mpg123", "--list-modules"], "alsa"),
}


def speaks_to_pulse(name):
    """Whether a client is here with what it needs to speak to PulseAudio, which Debian has for some in packages of their own."""
    if shutil.which(name) is None or name in BY_ALSA and not glob.glob("/usr/lib/*/alsa-lib/libasound_module_pcm_pulse.so"):
        return False
    words, told = ASKED.get(name, (None, None))
    if words is None:
        return True
    asked = subprocess.run(words, capture_output=True, text=True)
    return told in asked.stdout + asked.stderr
