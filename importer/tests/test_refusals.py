"""Tests what a refusal says: packets, times and sequence numbers as Wireshark shows them, and no line of the trace."""
import json
import os
import shutil
import subprocess
import unittest
from unittest import mock

from tcpwit_importer.capture.segments import ACK, FIN
from tcpwit_importer.commands.wireshark import seconds
from tcpwit_importer.infer import calls

from .test_judge import WithCaptures, no, run
from .wire import SECOND, Talk

# In the traces of these tests, the calls begin just before the segments that they permit.
LATE = "line 18: it is late; owed since {}, due by 1502000, with the slack by 2502000, and late at 2600000"
LETTERS = ["B", "E", "O", "I", "O", "B", "E", "O", "I"]
# The traces have this version at all levels.
OF_VERSION = ["--version", "5"]


def sentence(text, **members):
    """An answer whose levels refuse this."""
    answer = no("a-rule", **members)
    for level in answer["levels"]:
        level["sentence"] = f"{text}."
    answer["said"] = ["none      no 7 8 a-rule", f"Under full and none: {text}."]
    return answer


class Sentences(WithCaptures):
    def setUp(self):
        super().setUp()
        self.enterContext(mock.patch.object(calls, "WIDTH", 0))
        # The capture begins with a packet of another connection, 2.5 s earlier.
        other = Talk(zero=("10.9.0.1", 3999), at=self.talk.at - 14 * 10**6 - 5 * SECOND // 2)
        self.talk.frames[0].insert(0, other.frames[0][0])

    def said(self, text, *words, **members):
        """What the line of the second connection says was refused."""
        answer = sentence(text, **members)
        status, out, error = run(*self.files(hosts=(0,)), "--host", "client", *OF_VERSION, *self.lab(answer, 1), *words)
        self.assertEqual(status, 1, error)
        return out.splitlines()[1].split(" no a-rule; ")[1]

    def letters(self):
        """The letters of the lines of the last trace."""
        self.said("line 11: it is wrong", input_line=11)
        return [line.split()[2] for line in self.text("given").splitlines()[10:]]

    def test_a_line_of_a_packet(self):
        self.assertEqual(self.letters()[:9], LETTERS)
        self.assertEqual(self.said("line 14: it is wrong", input_line=14), "packet 3 (2.503000 s): it is wrong")

    def test_a_line_of_a_call(self):
        self.assertEqual(self.said("line 16: it is wrong", input_line=16), "before packet 5 (2.506000 s): it is wrong")

    def test_a_line_of_a_call_before_a_segment_that_is_sent(self):
        for line in (16, 18):
            self.assertEqual(self.said(f"line {line} sends 9 bytes", input_line=line),
                             "packet 5 (2.506000 s) sends 9 bytes")

    def test_an_arrival_before_a_segment_that_is_sent(self):
        self.assertEqual(self.said("line 14 sends 9 bytes", input_line=14), "packet 4 (2.504000 s) sends 9 bytes")

    def test_a_line_that_the_search_added(self):
        self.assertEqual(self.said("line 16: the timer is off"), "before packet 5 (2.506000 s): the timer is off")

    def test_what_comes_after_the_last_line(self):
        for text, words in (("line 999: it is wrong", "it is wrong"),
                            ("after the last step: it is wrong", "it is wrong"),
                            ("line 999 sends 9 bytes", "a segment sends 9 bytes")):
            self.assertEqual(self.said(text), f"after packet 8 (2.513000 s), the last one: {words}")

    def test_a_sentence_of_another_kind(self):
        self.assertEqual(self.said("it is wrong"), "after packet 8 (2.513000 s), the last one: it is wrong")

    def test_positions(self):
        for said, words in (
                ("position 414, and everything below 415 is acknowledged already",
                 "sequence number 414, and everything below 415 is acknowledged already"),
                (f"position {2**32 + 7}, but only positions below 9 were sent before",
                 "sequence number 7, but only those below 9 were sent before")):
            self.assertEqual(self.said(f"line 13 begins at {said}", input_line=13),
                             f"packet 2 (2.500000 s) begins at {words}")

    def test_a_late_duty(self):
        # The first line, which has the time 1000000, is the call before the SYN.
        self.assertEqual(self.said(LATE.format(1003000), input_line=18),
                         "packet 5 (2.506000 s): it is late; owed since packet 3 (2.503000 s), due by 3.002000 s, with "
                         "the slack by 4.002000 s, and late at 4.100000 s")

    def test_a_duty_that_begins_between_packets(self):
        self.assertEqual(self.said(LATE.format(1003500), input_line=18),
                         "packet 5 (2.506000 s): it is late; owed since 2.503500 s, after packet 3, due by 3.002000 s, "
                         "with the slack by 4.002000 s, and late at 4.100000 s")

    def test_a_duty_that_is_due_at_once(self):
        for since, words in ((1003000, "due at once after packet 3 (2.503000 s)"),
                             (1003001, "due at 2.503001 s, after packet 3")):
            self.assertEqual(self.said(f"after the last step: it is late; due at {since}, with the slack by 2502000, "
                                       "and late at 2600000"),
                             f"after packet 8 (2.513000 s), the last one: it is late; {words}, with the slack by "
                             "4.002000 s, and still missing at the end, 4.100000 s")

    def test_lines_of_a_trace_are_only_in_a_report(self):
        text = "line 14: it is wrong"
        words = [*self.files(hosts=(0,)), "--host", "client", *OF_VERSION,
                 *self.lab(sentence(text, input_line=14), 1)]
        self.assertNotIn("line 14", run(*words)[1] + run(*words, "--json")[1])
        out = run(*words, "--json", "--report", f"{self.folder}/kept")[1]
        found = json.loads(out.splitlines()[1])
        self.assertEqual((found["said"][1], found["sentence"]),
                         (f"Under full and none: {text}.", "packet 3 (2.503000 s): it is wrong."))
        explained = self.text(os.path.relpath(found["files"][3], self.folder)).splitlines()
        self.assertEqual(explained[1:4],
                         [f"Under full and none: {text}.",
                          "Under full and none: packet 3 (2.503000 s): it is wrong.", ""])

    def test_a_duty_in_json(self):
        text = "after the last step: it is late; owed since 1003000, due by 1502000, with the slack by 2502000, " \
            "and late at 2600000"
        name, = self.files(hosts=(0,))
        out = run(name, "--host", "client", *self.lab(sentence(text), 1), "--json")[1]
        found = json.loads(out.splitlines()[1])
        self.assertEqual({name: found[name] for name in ("capture", "packet", "time", "owed")},
                         {"capture": name, "packet": 8, "time": 2.513,
                          "owed": {"capture": name, "packet": 3, "time": 2.503, "began": True, "since": 2.503,
                                   "due": 3.002, "latest": 4.002, "late": 4.1}})


class Times(WithCaptures):
    def test_times_of_two_captures(self):
        # Host 1's clock is 300 s ahead, and its capture begins 1 ms later.
        self.enterContext(mock.patch.object(calls, "WIDTH", 0))
        self.talk.frames[1] = [(moment + 300 * SECOND, frame) for moment, frame in self.talk.frames[1]]
        text = "line 13: it is late; owed since 1001000, due by 1501000, with the slack by 2501000, and late at 2600000"
        _, out, _ = run(*self.files(), *OF_VERSION, *self.lab(sentence(text, input_line=13), 1))
        self.assertEqual(out.splitlines()[0].replace(self.folder, "FOLDER").split(" no a-rule; ")[1],
                         "packet 1 of FOLDER/c0.pcap (0.000000 s): it is late; owed since packet 1 of FOLDER/c1.pcap "
                         "(0.000000 s), due by 0.500000 s, with the slack by 1.500000 s, and late at 1.599000 s")

    def test_between_the_hosts(self):
        # The packets' own times, not the estimated ones of the hosts.
        self.talk.send(0, payload=b"more")
        _, out, _ = run(*self.files(hosts=(0,)), "--between", *self.lab(sentence("line 12 sends 9 bytes"), 1))
        self.assertIn("; packet 1 (0.000000 s) sends 9 bytes", out.splitlines()[0])

    def test_seconds(self):
        for time, words in ((0, "0.000000 s"), (12345678999, "12.345678 s"), (-1500, "-0.000001 s")):
            self.assertEqual(seconds(time), words)


@unittest.skipUnless(os.environ.get("TCPWIT_LAB"), "TCPWIT_LAB names no program")
class Verdicts(WithCaptures):
    def refused(self, *words):
        """What the line of the first connection of host 0's capture says was refused."""
        _, out, error = run(*self.files(hosts=(0,)), *words)
        self.assertNotIn("line ", out, error)
        return out.splitlines()[0].split(" no ", 1)[1]

    def test_an_acknowledgment_that_is_late(self):
        self.talk = Talk()
        self.talk.send(0, payload=b"first")
        self.talk.send(1, payload=b"hello")
        self.talk.at += 10 * SECOND
        self.talk.send(0, payload=b"more")
        self.assertEqual(self.refused("--host", "client"),
                         "ack-late; before packet 6 (10.010000 s): no acknowledgment is sent within half a second and "
                         "the slack (ack-late); owed since packet 5 (0.009000 s), due by 0.509000 s, with the slack "
                         "by 1.509000 s, and late at 10.010000 s")

    def test_a_retransmission_that_is_missing(self):
        self.talk = Talk()
        self.talk.send(0, payload=b"first", lost=True)
        later = Talk(zero=("10.9.0.1", 4001), at=500 * SECOND)
        self.talk.frames[0] += later.frames[0]
        # Version 6 grants five times the tick of the timers more (docs/reference/model.md).
        for words, due in ((OF_VERSION, "206000"), ([], "226000")):
            self.assertEqual(self.refused("--host", "client", *words),
                             "expiry-late; after packet 4 (0.006000 s), the last one: the retransmission timer should "
                             f"have expired (expiry-late); owed since packet 4 (0.006000 s), due by 0.{due} s, with "
                             f"the slack by 1.{due} s, and still missing at the end, 400.004000 s")


@unittest.skipUnless(shutil.which("tshark"), "tshark isn't installed")
class Tshark(WithCaptures):
    def test_times_and_numbers(self):
        self.talk.send(0, FIN | ACK, b"bytes")
        name, = self.files(hosts=(0,))
        words = ["tshark", "-n", "-r", name, "-T", "fields", "-e", "frame.number", "-e", "frame.time_relative", "-e",
                 "tcp.seq"]
        rows = subprocess.run(words, check=True, stdout=subprocess.PIPE, stderr=subprocess.DEVNULL, text=True).stdout
        number, time, sequence = rows.splitlines()[-1].split()
        # The SYN has number 0; then come 5 bytes and a FIN.
        self.assertEqual(sequence, "7")
        run(name, "--host", "client", *OF_VERSION, *self.lab())
        line = max(at for at, text in enumerate(self.text("given").splitlines(), 1) if text.split()[2:3] == ["O"])
        answer = sentence(f"line {line} begins at position {sequence}, and everything below 9 is acknowledged already",
                          input_line=line)
        _, out, _ = run(name, "--host", "client", *OF_VERSION, *self.lab(answer, 1))
        self.assertIn(f"; packet {number} ({time[:-3]} s) begins at sequence number 7, ", out)


if __name__ == "__main__":
    unittest.main()
