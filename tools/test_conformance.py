"""Tests of the script of conformance/, over the reckoner in place of the program."""

import os
import runpy
import stat
import subprocess
import sys
import tempfile
import unittest

TOP = os.path.dirname(os.path.dirname(os.path.abspath(__file__)))
PROGRAM = f"""#!{sys.executable}
import sys
sys.dont_write_bytecode = True
sys.path[:0] = [{os.path.join(TOP, "conformance")!r}, {os.path.join(TOP, "tools")!r}]
import cached
import monitors
import ramps
import reckon
import recording
session = sys.stdin.buffer.read()
if sys.argv[1] == "convert":
    read = recording.read_session(session)
    said = bytearray(recording.spelled_header(read.cookie, read.sinks, recording.TWO))
    said += b"".join(recording.spelled_event(event, recording.TWO) for event in read.events)
else:
    ramp = map(int, sys.argv[3:])
    said = bytearray((ramps if "--ramp" in sys.argv else monitors if "--monitor" in sys.argv else cached if "--samples" in sys.argv else reckon).reckoned(session, *ramp))
FLIP
sys.stdout.buffer.write(said)
"""


class Running(unittest.TestCase):
    def run_rows(self, flip, *words):
        with tempfile.NamedTemporaryFile("w", suffix=".py", delete=False) as file:
            self.addCleanup(os.remove, file.name)
            file.write(PROGRAM.replace("FLIP", flip))
        os.chmod(file.name, stat.S_IRWXU)
        script = os.path.join(TOP, "conformance", "run")
        ran = subprocess.run([script, "--program", file.name, *words], capture_output=True, text=True, cwd="/")
        return ran.returncode, ran.stdout, ran.stderr

    def test_rows_pass_in_any_cutting(self):
        rows = ("turns/seeks", "connections/side_by_side", "mix/clipped_once")
        self.assertEqual(self.run_rows("", "--cut", "all", *rows), (0, "12 passed, 0 failed\n", ""))
        self.assertEqual(self.run_rows("", "--cut", "5", *rows), (0, "3 passed, 0 failed\n", ""))

    def test_rows_are_converted(self):
        """What a program makes of a session in the second form is compared byte for byte, and replayed."""
        rows = ("turns/seeks", "forms/one_stop", "forms/moved_away", "convert/of_the_second_form")
        self.assertEqual(self.run_rows("", "--convert", *rows), (0, "10 passed, 0 failed\n", ""))
        status, said, _ = self.run_rows("said[-19] ^= sys.argv[1] == 'convert'", "--convert", "turns/silence")
        self.assertEqual((status, said.splitlines()[0], said.splitlines()[-1]), (1, "turns/silence, converted", "2 passed, 1 failed"))

    def test_what_was_worked_by_hand_is_reckoned(self):
        """The rows of the life of streams, of forms, of formats, of moves, of plans, of sinks, of volumes, of infos and of versions, and recorded clients."""
        rows = [f"infos/{name}" for name in ("changed", "clients", "inputs", "pactl_list", "properties", "sink_infos", "streams", "volumes")] + ["create/repaired"]
        # all but two rows of versions: the reckoner can't tell which item is another one
        named = sorted(os.listdir(os.path.join(TOP, "conformance", "versions")))
        rows += [f"versions/{name.rsplit('.', 1)[0]}" for name in named if name.endswith((".output", ".answer")) and not name.startswith(("create_f", "attributes_f"))]
        for topic in ("formats", "forms", "moves", "plans", "sinks", "streams", "subscriptions", "volumes"):
            names = sorted(os.listdir(os.path.join(TOP, "conformance", topic)))
            rows += [f"{topic}/{name[: -len('.output')]}" for name in names if name.endswith(".output")]
        # the other rows of events have kills, which the reckoner doesn't know
        rows += ["events/comes_and_goes"]
        rows += [f"recorded/{name}" for name in ("paplay", "aplay_alsa_plugin_18", "pacat_s24le_18", "pactl_list_18", "sox_play_18")]
        self.assertEqual(self.run_rows("", *rows), (0, f"{len(rows)} passed, 0 failed\n", ""))

    def test_record_streams_are_reckoned(self):
        """All rows of the mode but those that are refused and the one with subscriptions, which the reckoner doesn't know; one without the mode."""
        names = {name.rsplit(".", 1)[0] for name in os.listdir(os.path.join(TOP, "conformance", "monitors"))}
        rows = [f"monitors/{name}" for name in sorted(names - {"frames_of_some", "no_messages", "not_live", "subscribed"})]
        self.assertEqual(self.run_rows("", *rows), (0, f"{len(rows)} passed, 0 failed\n", ""))
        cut = [f"monitors/{name}" for name in ("in_one_event", "in_pieces", "faults_after_its_own")]
        self.assertEqual(self.run_rows("", "--cut", "7", "--convert", *cut), (0, "9 passed, 0 failed\n", ""))

    def test_samples_are_reckoned(self):
        """All rows of the mode but those that are refused and the one with subscriptions, which the reckoner doesn't know; and the kills, which it needs."""
        names = {name.rsplit(".", 1)[0] for name in os.listdir(os.path.join(TOP, "conformance", "cache"))}
        rows = [f"cache/{name}" for name in sorted(names - {"its_number", "its_bytes", "its_close", "its_cut", "subscribed", "largest"})]
        rows += [f"kills/{name}" for name in ("clients", "itself", "moving", "streams")]
        self.assertEqual(self.run_rows("", *rows), (0, f"{len(rows)} passed, 0 failed\n", ""))
        self.assertEqual(self.run_rows("", "--cut", "7", "--convert", "cache/played", "cache/faults"), (0, "6 passed, 0 failed\n", ""))

    def test_ramps_are_reckoned(self):
        """All rows of the mode, and rows of `replay` that are played twice, but for those in which a volume changes or isn't full."""
        names = {name.rsplit(".", 1)[0] for name in os.listdir(os.path.join(TOP, "conformance", "ramps"))}
        self.assertEqual(self.run_rows("", *(f"ramps/{name}" for name in sorted(names))), (0, f"{len(names)} passed, 0 failed\n", ""))
        rows = ("turns/seeks", "moves/there", "volumes/taken_at_a_turn", "mix/greatest_factor", "ramps/falls")
        self.assertEqual(self.run_rows("", "--ramp", *rows), (0, "6 passed, 0 failed\n", ""))
        status, said, _ = self.run_rows("said[-3] ^= '--ramp' in sys.argv", "--ramp", "--cut", "9", "turns/seeks")
        self.assertEqual((status, said.splitlines()[0], said.splitlines()[-1]), (1, "turns/seeks, in pieces of 9, by --ramp", "1 passed, 1 failed"))

    def test_rows_of_replay_by_the_word_for_samples(self):
        """They are played twice, but for those in which a client sends a command of samples, or has the place of the server's own connection."""
        rows = ("turns/seeks", "kills/streams", "infos/clients", "cache/by_replay", "cache/played", "connections/the_65th")
        self.assertEqual(self.run_rows("", "--samples", *rows), (0, "9 passed, 0 failed\n", ""))
        status, said, _ = self.run_rows("said[-3] ^= '--samples' in sys.argv", "--samples", "--cut", "9", "turns/seeks")
        self.assertEqual((status, said.splitlines()[0], said.splitlines()[-1]), (1, "turns/seeks, in pieces of 9, by --samples", "1 passed, 1 failed"))

    def test_rows_of_replay_by_the_other_word(self):
        """They are played twice, but for those in which a client sends a command of record streams."""
        rows = ("turns/seeks", "turns/silence", "monitors/by_replay", "monitors/created", "auth/once")
        self.assertEqual(self.run_rows("", "--monitor", *rows), (0, "8 passed, 0 failed\n", ""))
        status, said, _ = self.run_rows("said[-3] ^= '--monitor' in sys.argv", "--monitor", "--cut", "9", "turns/seeks")
        self.assertEqual((status, said.splitlines()[0], said.splitlines()[-1]), (1, "turns/seeks, in pieces of 9, by --monitor", "1 passed, 1 failed"))

    def test_a_byte_that_differs_is_told(self):
        # the last sample of the record that plays stands before the end byte
        status, said, _ = self.run_rows("said[-3] ^= 1", "turns/seeks", "turns/silence")
        self.assertEqual(status, 1)
        self.assertIn("turns/seeks\n  record 3 differs\n", said)
        line = next(line for line in said.splitlines() if "1000x70" in line)
        self.assertIn("1000x69 1001", line.partition("#")[2])
        self.assertIn("turns/silence\n  record 2 differs\n", said)
        self.assertEqual(said.splitlines()[-1], "0 passed, 2 failed")

    def test_statuses_lines_and_missing_records_are_told(self):
        said = self.run_rows("del said[-1:]", "turns/silence")[1]
        self.assertIn("record 3 differs", said)
        self.assertIn("no end byte", said)
        said = self.run_rows("sys.stderr.write('oh\\n'); sys.exit(3)", "turns/silence", "refused/live")[1]
        self.assertIn("status 0 was wanted, and 3 came", said)
        self.assertIn("the line 'pulse_rw: refused at 590: live 1\\n' was wanted, and 'oh\\n' came", said)

    def test_a_topic_is_all_its_rows(self):
        rows = [name for name in os.listdir(os.path.join(TOP, "conformance", "plans")) if name.endswith(".session")]
        self.assertEqual(self.run_rows("", "plans", f"plans/{rows[0][:-8]}"), (0, f"{len(rows)} passed, 0 failed\n", ""))

    def test_other_words(self):
        self.assertEqual(self.run_rows("", "turns/none")[0::2], (1, "conformance/run: there is no row turns/none\n"))
        self.assertEqual(self.run_rows("", "turn")[0::2], (1, "conformance/run: there is no row turn\n"))
        self.assertEqual(self.run_rows("", "--cut", "0")[0], 1)
        self.assertEqual(self.run_rows("", "--unknown")[0], 2)


class Reckoning(unittest.TestCase):
    def test_the_loudest_mixes(self):
        """192 of the greatest samples and 64 of the least are clipped once; with 128 of the former gone, 64 of each are -64. Times 2^31 - 1
        and divided by 2^16, rounded down, the greatest, the least, 1 and 0 are -2 together at 16 bits and -1 at 32."""
        ran = runpy.run_path(os.path.join(TOP, "conformance", "reckon.py"))
        session = ran["make"](ran["thrown_by"](["--loud"]))
        told = ran["output"].show(ran["reckoned"](session), ran["read_session"](session))[0]
        played = [line.split()[-1] for line in told.splitlines() if line.startswith("played")]
        full, most = ["32767", "2147483647"], [str(-2 * 64), str(-64)]
        left = ["-64", "-64", str(-2 * 32), str(-32)]
        self.assertEqual(played, [f"{value}x2" for value in full + most] + full + most + [f"{value}x3" for value in left])

    def test_attacks_at_both_places(self):
        """The benchmark makes the sessions of the attacks by a shorter way, and the same of each but the one that it plays in stereo."""
        costs = runpy.run_path(os.path.join(TOP, "bench", "costs.py"))
        attacks = costs["attacks"]
        self.assertEqual(set(costs["COUNTS"]), set(attacks.ATTACKS))
        for name in set(costs["COUNTS"]) - set(costs["PLAIN"]):
            self.assertEqual(costs["session_of"](name, 100), costs["make"](attacks.thrown(name, 100)), name)

    def test_a_recorded_client(self):
        """The reckoner gives what another implementation gave for a session of PulseAudio's own paplay."""
        said = []
        for name in ("paplay.prs", "paplay.out"):
            with open(os.path.join(TOP, "examples", name), "rb") as file:
                said.append(file.read())
        reckoned = runpy.run_path(os.path.join(TOP, "conformance", "reckon.py"))["reckoned"]
        self.assertEqual(reckoned(said[0]), said[1])
