"""Tests where tcpwit-judge says that a capture was made, and by which signs."""
import json
import os
import struct
import tarfile
import tempfile
import unittest
from unittest import mock

from tcpwit_importer.capture.index import Capture, indexed
from tcpwit_importer.capture.segments import ACK
from tcpwit_importer.infer.place import Places
from tcpwit_importer.problem import Notes

from .test_judge import NO, WithCaptures, run
from .test_recordings import DATA
from .wire import Talk, pcap, segment

CLIENT, SERVER = b"\x0a\x09\0\1", b"\x0a\x09\0\2"
# Nanoseconds.
MS, FAST, SLOW = 10**6, 10**5, 3 * 10**7

AT_ONCE = "it answers at once"
SLOW_BOTH = "neither host answers much sooner than the other"


def host(number, *reasons):
    """What is said of a captured host."""
    return f"10.9.0.{number} counts as the captured host: " + " and ".join(reasons)


def between(reason, count=1):
    """What is said of a capture between the hosts."""
    return f"c.pcap counts as made between the hosts ({count} connection{'s' * (count > 1)}): {reason}"


def total(data):
    """The sum of 16-bit words."""
    words = sum(struct.unpack(f"!{(len(data) + 1) // 2}H", data + bytes(len(data) % 2)))
    while words >> 16:
        words = (words & 0xFFFF) + (words >> 16)
    return words


def with_checksum(frame, finished):
    """A frame with a right checksum, or with that of the addresses and the length, which an offload finishes."""
    body = frame[34:50] + bytes(2) + frame[52:]
    pseudo = frame[26:34] + struct.pack("!HH", 6, len(body))
    found = total(pseudo + body) ^ 0xFFFF if finished else total(pseudo)
    return frame[:50] + struct.pack("!H", found) + frame[52:]


def with_lifetime(frame, lifetime):
    """A frame with another TTL."""
    return frame[:22] + bytes([lifetime]) + frame[23:]


class Place(WithCaptures):
    def talk_with(self, answer=SLOW, reply=SLOW, lifetimes=(64, 64), finished=(True, True), port=4000, zero="10.9.0.1"):
        """A capture's frames: the SYN-ACK comes so many nanoseconds after the SYN, and the ACK so many after that; the
        ends' packets have these TTLs, and their checksums may be finished."""
        frames, moments = Talk((zero, port)).frames[0], [0, answer, answer + reply]
        found = []
        for place, (moment, frame) in enumerate(frames):
            end = int(frame[26:30] == SERVER)
            found.append((moment + moments[min(place, 2)] - [0, 3 * MS, 4 * MS][min(place, 2)],
                          with_checksum(with_lifetime(frame, lifetimes[end]), finished[end])))
        return found

    def place(self, *talks, words=()):
        """The end of each connection whose host counts as captured, or how it's judged else; and what is said."""
        frames = sorted((frame for talk in talks for frame in talk), key=lambda frame: frame[0])
        pcap(f"{self.folder}/c.pcap", frames)
        status, out, error = run(f"{self.folder}/c.pcap", *self.lab(), *words)
        said = [line.removeprefix("tcpwit-judge: ").replace(self.folder + "/", "") for line in error.splitlines()]
        hosts = [line for line in self.text("given").splitlines() if line.startswith("hosts")] if status == 0 else []
        first = next((line.split()[2] for line in self.text("given").splitlines()
                      if line.split()[2:4] in (["O", "0"], ["I", "0"])), "") if hosts else ""
        return {("hosts 1", "O"): "client", ("hosts 1", "I"): "server", ("hosts 2", "O"): "between"}.get(
            (*hosts, first), out), said

    def test_times(self):
        for answer, reply, place in ((SLOW, FAST, "client"), (FAST, SLOW, "server"), (3 * MS, MS, "client"),
                                     (3 * MS - 1000, MS, "between"), (SLOW, 2 * MS, "between"), (SLOW, SLOW, "between"),
                                     (2 * MS, SLOW, "between"), (FAST, FAST, "between"), (0, 0, "between"),
                                     (MS, 0, "client")):
            found, said = self.place(self.talk_with(answer, reply))
            self.assertEqual(found, place, (answer, reply))
            self.assertEqual(said, [between(SLOW_BOTH) if place == "between" else
                                    host(1 + (place == "server"), AT_ONCE)])

    def begun(self, answer, reply, lifetimes=(64, 64)):
        """The frames of a capture that began late: the server acknowledges the client's bytes after so many
        nanoseconds, and the client those of the server; None if one doesn't."""
        talk = Talk()
        talk.frames[0] = []
        for host, time in ((0, answer), (1, reply)):
            if time is not None:
                talk.send(host, payload=b"abc")
                talk.at += time - 2 * MS
                talk.send(1 - host)
                talk.at += SLOW
        # Host 0's capture has what host 1 sends a millisecond later.
        frames = [(moment - MS * (frame[26:30] == SERVER), frame) for moment, frame in talk.frames[0]]
        return [(moment, with_lifetime(frame, lifetimes[int(frame[26:30] == SERVER)])) for moment, frame in frames]

    def test_times_of_a_connection_that_began_before(self):
        near = "its packets have TTL 64"
        for answer, reply, reasons in ((SLOW, SLOW, [near]), (SLOW, None, [near]), (SLOW, MS, [near, AT_ONCE]),
                                       (SLOW, MS + 1000, [near]), (None, FAST, [near, AT_ONCE]),
                                       (FAST, FAST, [near, AT_ONCE]), (FAST, None, [near])):
            self.assertEqual(self.place(self.begun(answer, reply, (64, 53)))[1], [host(1, *reasons)], (answer, reply))
        with mock.patch("tcpwit_importer.capture.signs.TIMED", 3):
            # The client's acknowledgment is the fourth packet.
            self.assertEqual(self.place(self.begun(SLOW, FAST, (64, 53)))[1], [host(1, near)])
        found, said = self.place(self.begun(FAST, SLOW, (64, 53)))
        self.assertIn("not judged: it began before the capture (4 segments)", found)
        self.assertEqual(said, [between("TTLs and times show different hosts")])
        # The other host may answer as soon, if it's near, and the captured one late.
        for answer, reply in ((SLOW, FAST), (FAST, SLOW), (FAST, FAST), (SLOW, SLOW)):
            found, said = self.place(self.begun(answer, reply))
            self.assertIn("not judged: nothing shows which of its hosts", found)
            self.assertEqual(said, [])

    def test_only_lifetimes_show_no_fault_of_a_connection_that_began_before(self):
        for reply, expected in ((SLOW, "not judged: it began before the capture, and only TTLs show that this was made "
                                 "at a host, not near it (--host says it)"), (FAST, "none      no ack-late")):
            pcap(f"{self.folder}/c.pcap", self.begun(SLOW, reply, (64, 53)))
            _, out, _ = run(f"{self.folder}/c.pcap", *self.lab(NO, 1))
            self.assertIn(f":80   {expected}", out)
            self.assertEqual("Only one host was captured" in out, reply == FAST)
            _, out, _ = run(f"{self.folder}/c.pcap", *self.lab(NO, 1), "--host", "client")
            self.assertIn(":80   none      no ack-late", out)
            # Another connection shows that the host answers at once.
            pcap(f"{self.folder}/c.pcap", [*self.begun(SLOW, reply, (64, 53)), *self.talk_with(SLOW, FAST, port=4001)])
            self.assertIn("4000 -> 10.9.0.2:80   none      no ack-late",
                          run(f"{self.folder}/c.pcap", *self.lab(NO, 1))[1])

    def test_a_capture_between_the_hosts_has_no_duties(self):
        self.assertEqual(self.place(self.talk_with())[0], "between")
        self.assertIn("--slack any", self.text("words"))
        self.assertIn("slack any\n", self.text("given"))
        self.place(self.talk_with(SLOW, FAST))
        self.assertIn("slack 1000000\n", self.text("given"))
        _, out, _ = run(f"{self.folder}/c.pcap", *self.lab(), "--between")
        self.assertIn("The capture was made between the hosts: ", out)

    def test_the_summary_says_how_many_were_captured_between_the_hosts(self):
        self.place(self.talk_with(SLOW, FAST), self.talk_with(zero="10.9.0.7"), self.talk_with(zero="10.9.0.8"))
        _, out, _ = run(f"{self.folder}/c.pcap", *self.lab())
        self.assertIn("\nCaptured between the hosts: 2 connections. There no duty is judged", out)
        self.assertIn("\n1 connection with one host captured: the other one isn't judged there.\n", out)

    def test_json(self):
        for answer, reply, place in ((SLOW, FAST, "client"), (FAST, SLOW, "server"), (SLOW, SLOW, "between")):
            self.place(self.talk_with(answer, reply))
            for words, expected in (((), place), (("--host", "both"), "both"), (("--host", "10.9.0.2"), "server")):
                found = json.loads(run(f"{self.folder}/c.pcap", *self.lab(), "--json", *words)[1])
                self.assertEqual(found["place"], expected)

    def test_lifetimes(self):
        for lifetimes, place in (((64, 53), "client"), ((128, 53), "client"), ((255, 60), "client"),
                                 ((53, 64), "server"), ((64, 128), "between"), ((63, 53), "between"),
                                 ((64, 64), "between")):
            self.assertEqual(self.place(self.talk_with(FAST, FAST, lifetimes))[0], place, lifetimes)
        self.assertEqual(self.place(self.talk_with(FAST, FAST, (64, 53)))[1], [host(1, "its packets have TTL 64")])
        self.assertEqual(self.place(self.talk_with(SLOW, FAST, (63, 53))),
                         ("between", [between("the TTLs of both hosts show routers before it")]))

    def test_lifetimes_and_times_that_differ(self):
        self.assertEqual(self.place(self.talk_with(FAST, SLOW, (64, 53))),
                         ("between", [between("TTLs and times show different hosts")]))

    def test_a_capture_near_the_host_that_lifetimes_show(self):
        late = ("between", [between("the host that TTLs show doesn't answer at once")])
        for answer, reply, lifetimes, place in ((2 * MS, MS, (64, 53), 1), (2 * MS, MS + 1000, (64, 53), None),
                                                (MS, 2 * MS, (53, 64), 2), (MS + 1000, 2 * MS, (53, 64), None),
                                                (SLOW, 9 * MS, (64, 53), None)):
            found = self.place(self.talk_with(answer, reply, lifetimes))
            self.assertEqual(found, late if place is None else (
                ("client", "server")[place - 1], [host(place, "its packets have TTL 64")]), (answer, reply))

    def test_checksums(self):
        for finished, place in (((False, True), "client"), ((True, False), "server"), ((False, False), "between")):
            self.assertEqual(self.place(self.talk_with(finished=finished))[0], place)
        # They decide before TTLs and times.
        self.assertEqual(self.place(self.talk_with(FAST, SLOW, (53, 64), (False, True)))[0], "client")
        self.assertEqual(self.place(self.talk_with(lifetimes=(64, 53), finished=(False, True)))[1],
                         [host(1, "its checksums are unfinished", "its packets have TTL 64")])

    def test_received_segments_that_a_host_joined(self):
        # Their checksums are unfinished, too.
        frames = self.talk_with(FAST, SLOW)
        for number in range(9):
            data = segment(("10.9.0.1", 4000), ("10.9.0.2", 80), 1001 + number * 100, 5001, ACK, bytes(100))
            head = frames[0][1][:14] + bytes([0x45, 0]) + struct.pack("!H", 140) + frames[0][1][18:34]
            frames.append((frames[-1][0] + MS, with_checksum(head + data, False)))
        self.assertEqual(self.place(frames)[0], "server")

    def test_connections_vote(self):
        clear = [self.talk_with(SLOW, FAST, port=port) for port in (4001, 4002)]
        self.assertEqual(self.place(self.talk_with(), *clear)[1], [host(1, AT_ONCE)])
        self.assertEqual(self.place(self.talk_with(), self.talk_with(port=4003), *clear)[1], [between(SLOW_BOTH, 4)])
        # TTLs outweigh times.
        sure = self.talk_with(FAST, FAST, (64, 53), port=4001)
        self.assertEqual(self.place(sure, *(self.talk_with(port=port) for port in range(4002, 4009)))[1],
                         [host(1, "its packets have TTL 64")])

    def test_several_addresses(self):
        talks = [self.talk_with(SLOW, FAST, zero=f"10.9.0.{number}") for number in range(3, 8)]
        for count, said in ((2, "10.9.0.3 and 10.9.0.4 count as"), (3, "10.9.0.3, 10.9.0.4 and 10.9.0.5 count as"),
                            (5, "10.9.0.3, 10.9.0.4, 10.9.0.5 and 2 more count as")):
            self.assertEqual(self.place(*talks[:count])[1], [f"{said} the captured host: {AT_ONCE}"])

    def test_votes_against_addresses_are_forgotten(self):
        places = Places("c.pcap")
        with mock.patch("tcpwit_importer.infer.place.MOST", 3):
            pcap(f"{self.folder}/c.pcap", self.talk_with(SLOW, FAST))
            connection, = indexed([Capture(f"{self.folder}/c.pcap", f"{self.folder}/c.pcap")], Notes())
            for number in range(100):
                connection.server = (bytes([10, 9, 1, number]), 80)
                places.decide([connection])
                self.assertEqual(connection.place, connection.client)
                self.assertLessEqual(len(places.votes), 3)
        self.assertEqual(places.votes, {CLIENT: 100, connection.server[0]: -1})

    def test_a_connection_that_shows_nothing(self):
        syn = self.talk_with()[:1]
        self.assertIn("nothing shows which of its hosts", self.place(syn)[0])
        self.assertEqual(self.place(syn, self.talk_with(SLOW, FAST, port=4001)), ("client", [host(1, AT_ONCE)]))
        # It passes by.
        self.assertEqual(self.place(self.talk_with(SLOW, FAST, port=4001), self.talk_with(zero="10.9.0.7")[:1])[1],
                         [between("its packets show neither host, or both"), host(1, AT_ONCE)])

    def test_options_overrule_it(self):
        talk = self.talk_with(SLOW, FAST)
        for words, place in ((["--host", "server"], "server"), (["--between"], "between"),
                             (["--host", "10.9.0.2"], "server")):
            self.assertEqual(self.place(talk, words=words), (place, []))

    def test_marks(self):
        def cooked(frames, *marks):
            return [(moment + 1000 * number, struct.pack("!HHHQ", 4 * mark(frame), 1, 6, 0) + frame[12:14] + (
                frame[14:22] + bytes([64 - number]) + frame[23:])) for moment, frame in frames
                for number, mark in enumerate(marks)]

        def place(*marks):
            pcap(f"{self.folder}/any.pcap", cooked(self.talk_with(FAST, SLOW), *marks), 113)
            _, out, error = run(f"{self.folder}/any.pcap", *self.lab())
            return out.splitlines()[0], error

        # They decide before times.
        self.assertIn("10.9.0.1 counts as the captured host: the capture marks its packets as sent",
                      place(lambda frame: frame[26:30] == CLIENT)[1])
        # A router received each packet, and sent it with a lower TTL.
        self.assertIn("any.pcap counts as made between the hosts (1 connection): its host forwards packets",
                      place(lambda _: False, lambda _: True)[1])
        # A bridge doesn't lower it; nor does a host whose connection is with itself.
        self.assertIn("forwards its segments, or is both its hosts (--host both)",
                      place(lambda frame: frame[47] == 2)[0])

    def test_a_bridge(self):
        for interfaces, counts in (((3, 4), True), ((3, 3), False)):
            # Each packet is received at one interface, and sent at the other one of the end.
            found = [(moment + 1000 * sent, struct.pack("!HxxIHBBQ", 0x800, interfaces[
                sent ^ (frame[26:30] == SERVER)], 1, 4 * sent, 6, 0) + frame[14:])
                     for moment, frame in self.talk_with(FAST, SLOW) for sent in (False, True)]
            pcap(f"{self.folder}/any.pcap", found, 276)
            _, out, error = run(f"{self.folder}/any.pcap", *self.lab())
            said = "any.pcap counts as made between the hosts (1 connection): its host forwards packets"
            self.assertEqual(said in error, counts, error)
            self.assertEqual("forwards its segments, or is both its hosts (--host both)" in out, not counts, out)
            if counts:
                # Each packet counts once.
                self.assertEqual(self.text("given").count(" O "), 3)


class Recordings(unittest.TestCase):
    def test_captures_of_hosts(self):
        with tempfile.TemporaryDirectory() as folder, tarfile.open(os.path.join(DATA, "recordings.tar.xz")) as archive:
            archive.extractall(folder)
            count = 0
            for name in sorted(os.listdir(folder)):
                for host in (0, 1):
                    file = f"{folder}/{name}/host{host}.pcap"
                    if os.path.exists(file):
                        capture = Capture(file, file)
                        connections = indexed([capture], Notes())
                        Places(file).decide(connections)
                        for connection in connections:
                            with self.subTest(name, host=host):
                                self.assertIn(connection.place, [None] if name == "refused" else
                                              [(connection.client, connection.server)[host]])
                                count += 1
        self.assertEqual(count, 72)


if __name__ == "__main__":
    unittest.main()
