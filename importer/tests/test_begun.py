"""Tests connections that began before the capture: captures whose first packets were cut off.

The answers need TCPWIT_LAB, which names the program that judges. With TCPWIT_CUTS, all recordings are judged with all
cuts, which takes minutes.
"""
import json
import os
import tarfile
import tempfile
import unittest
from collections import Counter

from tcpwit_importer.capture.connections import Connection
from tcpwit_importer.capture.packets import packets_of
from tcpwit_importer.capture.segments import ACK, FIN, RST, SYN
from tcpwit_importer.infer.before import Received, edge_of, pause, sent_before, shift_of, unwrapped
from tcpwit_importer.infer.begun import growing, trips_for, trips_of_closed
from tcpwit_importer.problem import Notes

from .test_judge import WithCaptures, reporting, run
from .test_recordings import DATA
from .wire import ONE, SECOND, ZERO, Talk, ethernet, ip_packet, packed, packets, pcap, segment

OF_CLIENT = ["--host", "client"]
CLIENT, SERVER = ((packed(address), port) for address, port in (ZERO, ONE))
ALL, FEW = (1, 2, 3, 0.1, 0.5), {"abort": (1, 3), "half-curl": (2, 0.5), "loopback": (3,), "nginx-curl": (1, 3, 0.5),
                                 "offload-nginx": (2,), "socat-exec": (0.5,)}


class Output(WithCaptures):
    def judged(self, *words, cut=3):
        """The first line of the output if the client's capture lacks its first packets."""
        self.talk.frames[0] = self.talk.frames[0][cut:]
        return run(*self.files(hosts=(0,)), *OF_CLIENT, *self.lab(), *words)

    def test_the_line(self):
        status, out, _ = self.judged()
        self.assertEqual(status, 0)
        self.assertEqual(out.splitlines()[0], "10.9.0.1:4000 -> 10.9.0.2:80   full      yes 57 88   "
                                              "(judged from packet 1 on: it began before the capture)")

    def test_the_level(self):
        self.judged()
        self.assertIn("judge --json --least recovery\n", self.text("words"))
        self.judged("--level", "none", "--from", "full", cut=0)
        self.assertIn("judge --json --least none --from recovery\n", self.text("words"))
        self.judged("--level", "none", cut=0)
        self.assertIn("judge --json --least none\n", self.text("words"))

    def test_two_captures(self):
        self.talk.frames[1] = self.talk.frames[1][4:]
        _, out, _ = run(*self.files(), *self.lab())
        self.assertIn("(judged from packet 5 of F/c0.pcap and packet 1 of F/c1.pcap on: it began before the capture)",
                      out.replace(self.folder, "F"))

    def test_two_captures_that_both_begin_late(self):
        for host in (0, 1):
            self.talk.frames[host] = self.talk.frames[host][3:]
        for hosts in ((0, 1), (1, 0)):
            _, out, _ = run(*self.files(hosts=hosts), *self.lab())
            self.assertIn("1 connection: 1 yes", out)
            self.assertIn("hosts 2\n", self.text("given"))

    def test_duplicate_acknowledgments_in_flight(self):
        for options in (lambda _: b"", lambda number: bytes((8, 10, *bytes(3), number, *bytes(4), 1, 1))):
            talk = Talk()
            first = talk.next[0]
            talk.send(0, payload=b"a", lost=True)
            for number in range(6):
                talk.send(0, payload=b"b")
                following, talk.next[0] = talk.next[0], first
                talk.send(1, options=options(number))
                talk.next[0] = following
            # The server's capture begins when the third one was just sent.
            talk.frames[1] = talk.frames[1][9:]
            _, out, error = run(*self.files(talk), *self.lab())
            self.assertIn("(judged from packet 10 of", out)
            self.assertEqual(error, "")
            sent = Counter()
            for line in self.text("given").splitlines()[12:]:
                _, _, letter, *words = line.split()
                if (letter, words[0]) in (("O", "1"), ("I", "0")):
                    sent[words[1]] += 1 if letter == "O" else -1
                    self.assertGreaterEqual(sent[words[1]], 0, line)

    def test_json_and_a_report(self):
        _, out, _ = self.judged("--json", "--report", f"{self.folder}/kept")
        found = json.loads(out)
        self.assertEqual(found["judged_from"], [{"capture": f"{self.folder}/c0.pcap", "packet": 1, "time": 0.0}])
        first, last = found["made_up"]
        with open(found["files"][3], encoding="ascii") as file:
            self.assertIn(f"Lines {first} to {last} were made up: the connection began before the capture.\n", file)
        with open(found["files"][0], encoding="ascii") as file:
            lines = file.read().splitlines()
        self.assertEqual(first, 13)
        self.assertIn(" O 0 ", lines[last])
        self.assertTrue(lines[last].endswith(b"hello".hex()))

    def test_between_the_hosts(self):
        self.talk.frames[0] = self.talk.frames[0][3:]
        _, out, _ = run(*self.files(hosts=(0,)), "--between", *self.lab())
        self.assertIn("not judged: it began before the capture (4 segments)", out)

    def test_one_direction(self):
        self.talk.frames[0] = [frame for frame in self.talk.frames[0][3:] if frame[1][26:30] == bytes((10, 9, 0, 1))]
        status, out, _ = run(*self.files(hosts=(0,)), *OF_CLIENT, *self.lab())
        self.assertEqual(status, 2)
        self.assertIn("not judged: the capture has one direction only", out)

    def test_the_handshake(self):
        self.judged()
        lines = [line.split() for line in self.text("given").splitlines()[12:]]
        segments = [(line[2], bytes.fromhex(line[4])) for line in lines if line[2] in "OI"]
        self.assertEqual([(letter, each[13]) for letter, each in segments[:3]],
                         [("O", SYN), ("I", SYN | ACK), ("O", ACK)])
        moments = [int(line[0]) for line in lines]
        self.assertEqual(moments, sorted(moments))
        # No captured packet is among those that were made up.
        self.assertEqual(segments[-4][1][4:12], bytes.fromhex("000003e900001389"))


def seen(*rows):
    """Captured segments with their positions. A row has the sender (0 or 1), the number, the acknowledgment, the
    length, and perhaps the window and the flags."""
    talk = Talk()
    talk.frames[0] = []
    for at, (host, number, acknowledgment, size, *more) in enumerate(rows):
        ends = (ZERO, ONE) if host == 0 else (ONE, ZERO)
        window, flags = (*more, *(1000, ACK)[len(more):])
        made = segment(*ends, number, acknowledgment, flags, bytes(size), window=window)
        talk.frames[0].append((talk.at + at * SECOND, ethernet(ip_packet(*ends, made))))
    return unwrapped(packets(talk, 0), Connection(CLIENT, SERVER, 0), {CLIENT: 10_000, SERVER: 10_000})


class State(unittest.TestCase):
    def test_what_was_received(self):
        rows = (1, 11_000, 10_000, 100), (0, 10_000, 11_100, 0)
        self.assertEqual(Received(seen(*rows), CLIENT, 20_000).all, 11_000)
        self.assertEqual(Received(seen(*rows[1:], *rows), CLIENT, 20_000).all, 11_100)

    def test_what_was_received_out_of_order(self):
        rows = (0, 10_000, 11_000, 0), (1, 11_000, 10_000, 100), (0, 10_000, 11_500, 0)
        self.assertEqual(Received(seen(*rows), CLIENT, 20_000).parts, [(11_100, 11_500)])
        # What arrives later wasn't received, nor what is beyond the window.
        self.assertEqual(Received(seen(*rows, (1, 11_100, 10_000, 9)), CLIENT, 20_000).parts, [])
        self.assertEqual(Received(seen(*rows), CLIENT, 11_400).parts, [])

    def test_what_was_sent(self):
        self.assertEqual(sent_before(seen((0, 11_000, 10_000, 100), (1, 10_000, 11_000, 0)), CLIENT, 20_000), 11_000)
        # An acknowledgment, or a later number, shows that more was sent.
        self.assertEqual(sent_before(seen((1, 10_000, 11_400, 0)), CLIENT, 20_000), 11_400)
        self.assertEqual(sent_before(seen((0, 11_000, 1, 100), (0, 11_400, 1, 100)), CLIENT, 20_000), 11_400)
        self.assertEqual(sent_before(seen((0, 11_000, 1, 100), (0, 11_400, 1, 100)), CLIENT, 11_300), 11_000)

    def test_numbers_wrap(self):
        found = seen((0, 2**32 - 100, 1, 200), (1, 1, 100, 0))
        self.assertEqual([each.first for each in found], [-100, 1])
        self.assertEqual((found[0].stop, found[1].reached), (100, 100))

    def test_the_shift(self):
        # A window of 1000 may have any shift, until it shrinks: 100 bytes take 25 of it, so the shift is 2.
        rows = [(0, 10_000, 11_000, 0, 1000)]
        self.assertEqual(shift_of(seen(*rows), CLIENT), 14)
        rows += [(1, 11_000, 10_000, 100), (0, 10_000, 11_100, 0, 975)]
        self.assertEqual(shift_of(seen(*rows), CLIENT), 2)
        # What has been acknowledged had room.
        rows += [(1, 11_100, 10_000, 9000), (0, 10_000, 20_100, 0, 1000)]
        self.assertEqual(shift_of(seen(*rows), CLIENT), 4)

    def test_the_edge(self):
        self.assertEqual(edge_of(seen((0, 10_000, 11_000, 0, 100)), CLIENT, 2), 11_400)
        self.assertEqual(edge_of(seen((1, 11_000, 10_000, 500), (0, 10_000, 11_000, 0, 100)), CLIENT, 2), 11_500)
        # The byte of a probe had no room.
        self.assertEqual(edge_of(seen((1, 11_000, 10_000, 1), (0, 10_000, 11_000, 0, 0)), CLIENT, 2), 11_000)

    def test_a_pause(self):
        rows = (0, 10_000, 11_000, 10), (1, 11_000, 10_000, 0), (0, 10_000, 11_000, 10)
        self.assertEqual([each.packet.moment // SECOND for each in pause(seen(*rows), CLIENT)], [100, 102])
        self.assertIsNone(pause(seen(*rows[:2]), CLIENT))


@unittest.skipUnless(os.environ.get("TCPWIT_LAB"), "TCPWIT_LAB names no program")
class Answers(WithCaptures):
    """A small connection, of which the captures lack the handshake. The server's capture goes on for five seconds."""

    def setUp(self):
        super().setUp()
        self.talk = Talk()
        for _ in range(4):
            self.talk.send(0, payload=bytes(100))
            self.talk.send(1, payload=bytes(300))
        self.talk.send(0)

    def answer(self, *words, cut=3, hosts=(0, 1)):
        """The object of the connection if its captures lack their first packets, and go on afterwards."""
        other = segment(("10.9.0.1", 9), ("10.9.0.2", 9), 1, 1, RST)
        for host in hosts:
            self.talk.frames[host].append((self.talk.at + 5 * SECOND, ethernet(ip_packet(ZERO, ONE, other))))
            self.talk.frames[host] = self.talk.frames[host][cut:]
        _, out, error = run(*self.files(hosts=hosts), *words, "--json", "--jobs", "1", "--keep-gaps")
        self.assertNotIn("bug", error)
        found = [json.loads(line) for line in out.splitlines()]
        return next(each for each in found if each["segments"] > 1)

    def end(self, answered):
        """Ends the connection, by the client first."""
        self.talk.send(0, FIN | ACK)
        if answered:
            self.talk.send(1)
        self.talk.send(1, FIN | ACK)
        if answered:
            self.talk.send(0)

    def rule(self, *words, **options):
        """The answer, and the rule of a no."""
        found = self.answer(*words, **options)
        self.assertTrue(found["judged"], found)
        return found.get("rule", f"{found['level']} {found['answer']}")

    def test_a_yes(self):
        for host in (0, 1):
            with self.subTest(host):
                self.setUp()
                self.end(True)
                self.assertEqual(self.rule("--host", ("client", "server")[host], hosts=(host,)), "recovery yes")
        self.setUp()
        self.end(True)
        self.assertEqual(self.rule(), "recovery yes")

    def test_any_cut(self):
        for cut in range(1, 15):
            with self.subTest(cut):
                self.setUp()
                self.end(True)
                self.assertEqual(self.rule(cut=cut), "recovery yes")

    def test_blocks_show_that_both_syns_permitted_them(self):
        for cut in (1, 3, 4, 5, 6):
            for words, hosts in (([], (0, 1)), (["--host", "client"], (0,))):
                with self.subTest(cut, hosts=hosts):
                    self.talk = reporting()
                    self.assertEqual(self.rule("--version", "6", *words, hosts=hosts, cut=cut), "recovery yes")

    def test_an_acknowledgment_of_what_was_never_sent(self):
        self.talk.next[0] += 50
        self.talk.send(1)
        self.talk.next[0] -= 50
        self.talk.send(0, payload=bytes(100))
        self.talk.send(1)
        self.assertEqual(self.rule("--host", "server", hosts=(1,)), "bytes-differ")

    def test_bytes_beyond_the_window(self):
        self.talk.send(0, payload=bytes(900))
        self.talk.send(0, payload=bytes(900))
        self.talk.send(1)
        # The SYN with ACK shows that windows have no shift.
        self.assertEqual(self.rule("--host", "client", hosts=(0,), cut=1), "offered")

    def test_a_fin_without_an_answer(self):
        self.end(False)
        self.assertIn(self.rule("--host", "client", hosts=(0,)), ("ack-late", "expiry-late"))

    def test_a_retransmission_without_a_timeout(self):
        self.talk.next[0] -= 100
        self.talk.send(0, payload=bytes(100))
        self.talk.next[0] -= 100
        self.talk.send(0, payload=bytes(100))
        self.talk.send(1)
        found = self.answer("--host", "client", hosts=(0,))
        self.assertEqual(found["rule"], "old-data")

    def test_a_reset_as_the_first_packet(self):
        for flags in (RST, RST | ACK):
            self.setUp()
            self.talk.send(0, flags)
            self.talk.send(1, payload=b"late")
            found = self.answer("--host", "server", hosts=(1,), cut=12)
            self.assertFalse(found.get("answer") == "no", found)


@unittest.skipUnless(os.environ.get("TCPWIT_LAB"), "TCPWIT_LAB names no program")
class Pauses(WithCaptures):
    """Retransmissions and probes whose pauses were growing when the capture began."""

    def answers(self, rows, cuts, version):
        """The answers to the client's capture without its first packets. A row has the moment in seconds, the sender,
        the number, the acknowledgment, the length and the window."""
        frames = []
        for moment, host, number, acknowledgment, size, window in rows:
            ends = (ZERO, ONE) if host == 0 else (ONE, ZERO)
            made = segment(*ends, number, acknowledgment, ACK, bytes(size), window=window)
            frames.append((100 * SECOND + int(moment * SECOND), ethernet(ip_packet(*ends, made))))
        for place in cuts:
            pcap(f"{self.folder}/late.pcap", frames[place:])
            _, out, _ = run(f"{self.folder}/late.pcap", *OF_CLIENT, "--json", "--jobs", "1", "--version", version)
            found = json.loads(out)
            yield found["level"], found["answer"]

    def test_retransmissions(self):
        moments = [0.1 + 0.2 * (2**time - 1) for time in range(8)]
        rows = [(moment, 0, 1101, 5101, 100, 1000) for moment in moments[:7]]
        rows += [(moments[7] - 0.05, 1, 5101, 1201, 0, 1000), (moments[7], 0, 1201, 5101, 100, 1000),
                 (moments[7] + 0.001, 1, 5101, 1301, 0, 1000)]
        for version in ("5", "6"):
            self.assertEqual(set(self.answers(rows, (0, 3, 5, 6), version)), {("recovery", "yes")}, version)

    def test_probes(self):
        moments = [0.1 + 0.2 * (2**time - 1) for time in range(7)]
        rows = []
        for moment in moments[:6]:
            rows += [(moment, 0, 2101, 5101, 1, 1000), (moment + 0.001, 1, 5101, 2101, 0, 0)]
        rows += [(moments[6] - 0.05, 1, 5101, 2101, 0, 1000), (moments[6] - 0.049, 0, 2101, 5101, 100, 1000),
                 (moments[6] - 0.048, 1, 5101, 2201, 0, 1000)]
        for version in ("5", "6"):
            self.assertEqual(set(self.answers(rows, (0, 1, 8, 9), version)), {("recovery", "yes")}, version)


class Trips(unittest.TestCase):
    def test_the_timeout_after_them(self):
        least = 200 * 10**6
        for timeout in (3 * 10**8, 2 * SECOND, 6 * SECOND, 40 * SECOND):
            trips = trips_for(timeout, least)
            self.assertLessEqual(trips[0], 2.7 * SECOND)
            found = growing(max(trips), least)[1]
            self.assertTrue(0.9 * timeout < found <= timeout, (timeout, found))

    def test_the_timeout_before_a_closed_window(self):
        # After two equal round trips, RTTVAR is 3/8 of one.
        for timeout in (3 * 10**8, 2 * SECOND, 6 * SECOND):
            trips = trips_of_closed(timeout)
            self.assertEqual(len(set(trips)), 1)
            self.assertTrue(0.9 * timeout < trips[0] * 5 // 2 <= timeout, timeout)
        self.assertLessEqual(trips_of_closed(40 * SECOND)[0], 2.7 * SECOND)


@unittest.skipUnless(os.environ.get("TCPWIT_LAB"), "TCPWIT_LAB names no program")
class Recordings(unittest.TestCase):
    """Recordings whose connections lack their first packets: never a no, and no laxer level."""

    def setUp(self):
        self.folder = self.enterContext(tempfile.TemporaryDirectory())
        with tarfile.open(os.path.join(DATA, "recordings.tar.xz")) as archive:
            archive.extractall(self.folder)

    def test_cuts(self):
        cuts = dict.fromkeys(sorted(os.listdir(self.folder)), ALL) if os.environ.get("TCPWIT_CUTS") else FEW
        for name, sizes in cuts.items():
            folder = f"{self.folder}/{name}"
            files = sorted(f"{folder}/{file}" for file in os.listdir(folder) if file.endswith(".pcap"))
            words = OF_CLIENT if name.startswith("half") else []
            whole = self.levels(files, words)
            for size in sizes:
                with self.subTest(name, size=size):
                    found = self.levels([cut(file, size) for file in files], words)
                    # Of all cuts, some leave one packet, or one direction.
                    self.assertTrue(found or cuts is not FEW)
                    for pair, level in found.items():
                        self.assertLessEqual(level, max(1, whole[pair]), pair)

    def levels(self, files, words):
        """How lax the level is of each connection that is judged: 0 to 2, or 3 for a no."""
        _, out, error = run(*files, *words, "--from", "full", "--level", "none", "--json", "--jobs", "1")
        self.assertNotIn("bug", error)
        found = [json.loads(line) for line in out.splitlines()]
        return {frozenset((each["client"], each["server"])):
                ("full", "recovery", "none").index(each["level"]) if each["answer"] == "yes" else 3
                for each in found if each["judged"]}


def cut(name, size):
    """Writes a capture without the first packets of each connection, so many or this share of them."""
    with open(name, "rb") as file:
        data = file.read()
        file.seek(0)
        found = [(packet.offset, frozenset((packet.source, packet.target)))
                 for packet in packets_of(name, file, Notes())]
    counts, passed, parts = Counter(pair for _, pair in found), Counter(), [data[:24]]
    for offset, pair in found:
        passed[pair] += 1
        if passed[pair] > (size if size >= 1 else int(size * counts[pair])):
            parts.append(data[offset:offset + 16 + int.from_bytes(data[offset + 8:offset + 12], "little")])
    with open(f"{name}-{size}", "wb") as file:
        file.write(b"".join(parts))
    return f"{name}-{size}"


if __name__ == "__main__":
    unittest.main()
