"""Tests captures with comments on packets: what the comments say, and that the packets stay as they were."""
import io
import os
import re
import shutil
import subprocess
import tempfile
import unittest
from types import SimpleNamespace

from tcpwit_importer.capture.frames import Layout, frames_of
from tcpwit_importer.capture.packets import packets_of
from tcpwit_importer.capture.segments import ACK, FIN, SYN
from tcpwit_importer.commands.annotated import annotate
from tcpwit_importer.commands.retransmissions import UNJUDGED, Witness
from tcpwit_importer.commands.rules import SECTIONS, described
from tcpwit_importer.problem import Notes

from . import samples
from .test_judge import WithCaptures, no, reporting, run
from .wire import SECOND, SIZE, Talk, ethernet, ip_packet, segment

RULES = os.path.join(os.path.dirname(os.path.realpath(__file__)), "..", "..", "docs", "reference", "rules.md")
COMMENTS = {1: ["first"], 3: ["à la fin", "twice"], 10**6: ["no such packet"]}
PERMITTED = "tcpwit-judge: this retransmission is permitted at level full: "


def frames(data):
    """The frames of a file, without the places of their records."""
    return [frame[:4] + (frame.sent,) for frame in frames_of("capture", io.BytesIO(data), Layout())]


def tshark(name, *fields):
    """The values of fields of each packet that tshark reads."""
    words = ["tshark", "-n", "-r", name, "-T", "fields", "-E", "separator=/t", "-E", "aggregator=|",
             *[word for field in fields for word in ("-e", field)]]
    out = subprocess.run(words, check=True, stdout=subprocess.PIPE, stderr=subprocess.DEVNULL).stdout
    return [line.split("\t") for line in out.decode().splitlines()]


class Files(unittest.TestCase):
    def setUp(self):
        self.folder = self.enterContext(tempfile.TemporaryDirectory())

    def annotated(self, data, comments):
        """A file's bytes with comments."""
        name = f"{self.folder}/given"
        with open(name, "wb") as file:
            file.write(data)
        annotate(SimpleNamespace(name=name, file=name), comments, f"{self.folder}/made")
        with open(f"{self.folder}/made", "rb") as file:
            return file.read()

    def test_packets_stay_as_they_were(self):
        for kind, data in [*samples.every(), ("together", samples.together())]:
            with self.subTest(kind):
                for comments in ({}, COMMENTS):
                    self.assertEqual(frames(self.annotated(data, comments)), frames(data))
                notes, before = Notes(), Notes()
                packets = list(packets_of("capture", io.BytesIO(self.annotated(data, COMMENTS)), notes))
                self.assertEqual([packet.segment for packet in packets],
                                 [packet.segment for packet in packets_of("capture", io.BytesIO(data), before)])

    def test_pcapng_without_comments_is_copied(self):
        self.assertEqual(self.annotated(samples.together(), {}), samples.together())

    def test_comments_are_added_to_others(self):
        once = self.annotated(samples.together(), {1: ["first"]})
        twice = self.annotated(once, {1: ["second"]})
        self.assertIn(b"second", twice)
        self.assertEqual(twice.count(b"first"), 1)

    def test_a_last_packet_that_was_cut(self):
        for _, data in samples.of_files():
            found = frames(self.annotated(data[:-1], {}))
            self.assertEqual(found, frames(data)[:len(found)])
            self.assertGreaterEqual(len(found), len(frames(data)) - 1)

    @unittest.skipUnless(shutil.which("tshark"), "tshark isn't installed")
    def test_tshark_shows_the_comments(self):
        fields = ("frame.number", "frame.time_epoch", "frame.len", "frame.cap_len", "frame.protocols", "tcp.payload",
                  "frame.comment")
        kinds = "pcap, little, nanoseconds", "pcap, big, microseconds", "pcapng, big", "obsolete pcapng, little"
        files = dict(samples.of_files())
        for kind, data in [("together", samples.together()), *((kind, files[kind]) for kind in kinds)]:
            with self.subTest(kind):
                self.annotated(data, COMMENTS)
                given, made = (tshark(f"{self.folder}/{name}", *fields) for name in ("given", "made"))
                self.assertEqual([row[:-1] for row in made], [row[:-1] for row in given])
                shown = [row[-1] for row in made]
                self.assertEqual(shown[:4], ["first", "", "à la fin|twice", ""])
                self.assertFalse(any(shown[4:]))


class Rules(unittest.TestCase):
    def test_the_sections_of_the_page(self):
        with open(RULES, encoding="utf-8") as file:
            entries = re.split(r"^### \d+ ", file.read(), flags=re.MULTILINE)[1:]
        found = {}
        for entry in entries:
            if sections := re.search(r"^RFC: (.*?)\.\n\n", entry + "\n", re.MULTILINE | re.DOTALL):
                found[entry.split("\n")[0]] = " ".join(sections[1].split())
        self.assertEqual(SECTIONS, found)

    def test_in_words(self):
        self.assertEqual(described("ack-late"), "rule ack-late: RFC 9293, 3.8.6.3, 3.10.7.4; RFC 5681, 4.2")
        self.assertEqual(described("overdue"), "rule overdue")


class Words(WithCaptures):
    def test_a_file_for_each_capture(self):
        names, new = self.files(), [f"{self.folder}/new{number}" for number in (0, 1)]
        for files, outputs, said in (
                (names, new[:1], "--annotate names 1 file for 2 captures"),
                (names[:1], new, "--annotate names 2 files for 1 capture"),
                (names, [new[0], new[0]], f"--annotate {new[0]} would replace another file"),
                (names, [new[0], names[0]], f"--annotate {names[0]} would replace another file"),
                (["-"], new[:1], "--annotate is given with standard input")):
            words = [word for name in outputs for word in ("--annotate", name)]
            self.assertEqual(self.fails(*files, *words, *self.lab()), f"tcpwit-judge: {said}")
        self.assertFalse(any(map(os.path.exists, new)))


class Witnesses(unittest.TestCase):
    def test_nothing_is_said_of_what_was_refused(self):
        packets = [SimpleNamespace(capture="c0", count=count) for count in (1, 2)]
        head = [f"name {number}" for number in range(10)]
        trace = SimpleNamespace(head=head, writer=SimpleNamespace(packets=packets, letters=b"OO"))
        captured = SimpleNamespace(time=lambda time, _: time * 1000)
        lines = ["1 1 O 0 00", "2 14 T 0 4000 80 rto", "2 1 O 0 00", "witness 5", "1 M 0 4000 80 0 0 S 1000 7",
                 "1 L 11 1", "2 L 12 1 1", "2 M 0 4000 80 0 0 S 1000", "2 L 13 2"]
        said = "this retransmission is permitted at level full: the retransmission timer expired at 0.000002 s " \
            "(RFC 6298, 5.4)"
        # The fifth line of the witness builds the second segment.
        for refused, reasons in ((0, {("c0", 2): said}), (5, {})):
            self.assertEqual(Witness(iter([*head, *lines]), trace, captured, 1, refused).reasons, reasons)


@unittest.skipUnless(os.environ.get("TCPWIT_LAB"), "TCPWIT_LAB names no program")
class Answers(WithCaptures):
    def comments(self, talk, *words, hosts=(0,)):
        """The comments on the packets of the captures of a connection, for each capture."""
        names = self.files(talk, hosts)
        made = [f"{name}ng" for name in names]
        words = [*words, *(word for name in made for word in ("--annotate", name))]
        status, self.out, error = run(*names, *words, *(["--host", "client"] if len(hosts) == 1 else []))
        self.assertIn(status, (0, 1), error)
        return list(map(self.comments_in, made))

    @staticmethod
    def comments_in(name):
        """The comments of a file, by the packets' numbers."""
        found, count = {}, 0
        with open(name, "rb") as file:
            data = file.read()
        while data:
            kind, length = (int.from_bytes(data[at:at + 4], "little") for at in (0, 4))
            count += kind == 6
            at = 28 + (int.from_bytes(data[20:24], "little") + 3) // 4 * 4
            while kind == 6 and at < length - 4:
                code, size = (int.from_bytes(data[at + part:at + part + 2], "little") for part in (0, 2))
                if code == 1:
                    found.setdefault(count, []).append(data[at + 4:at + 4 + size].decode())
                at += 4 + (size + 3) // 4 * 4
            data = data[length:]
        return found

    def ended(self, talk):
        """Adds the end of a connection."""
        for host, flags in ((0, FIN | ACK), (1, FIN | ACK), (0, ACK)):
            talk.send(host, flags)
        return talk

    def again(self, talk, payload, wait):
        """Adds a segment that is lost, and its retransmission."""
        talk.send(0, payload=payload, lost=True)
        talk.next[0] -= len(payload)
        talk.at += wait
        talk.send(0, payload=payload)
        talk.send(1)
        return self.ended(talk)

    def test_a_timeout(self):
        talk = Talk()
        talk.send(0, payload=b"first")
        talk.send(1)
        talk = self.again(talk, b"hello", SECOND // 4)
        said = [f"{PERMITTED}the retransmission timer expired at {time} s (RFC 6298, 5.4)"
                for time in ("0.262000", "0.261000")]
        self.assertEqual(self.comments(talk), [{7: said[:1]}])
        # Its own time at the other host, which hasn't the lost segment.
        self.assertEqual(self.comments(talk, hosts=(0, 1)), [{7: said[:1]}, {6: said[1:]}])

    def syns(self, *waits):
        """A connection whose SYN is lost and sent again after each of these times."""
        talk = Talk()
        talk.frames, talk.next, talk.at = {0: [], 1: []}, {0: 1000, 1: 5000}, 100 * SECOND
        for wait in waits:
            talk.send(0, SYN, options=SIZE, lost=True)
            talk.next[0], talk.at = 1000, talk.at + wait
        talk.syn(SIZE)
        return self.ended(talk)

    def test_the_timeout_of_a_syn(self):
        self.assertEqual(self.comments(self.syns(SECOND)),
                         [{2: [f"{PERMITTED}the retransmission timer expired at 1.002000 s (RFC 6298, 5.4)"]}])

    def send(self, talk, host, payload=b"", window=30000, acknowledgment=None, lost=False):
        """Adds a segment with this window, and perhaps another acknowledgment."""
        ends = (talk.zero, talk.one) if host == 0 else (talk.one, talk.zero)
        acknowledgment = talk.next[1 - host] if acknowledgment is None else acknowledgment
        frame = ethernet(ip_packet(*ends, segment(*ends, talk.next[host], acknowledgment, ACK, payload, window=window)))
        talk.frames[host].append((talk.at, frame))
        if not lost:
            talk.frames[1 - host].append((talk.at + 10**6, frame))
        talk.next[host] += len(payload)
        talk.at += 2 * 10**6

    def test_three_duplicate_acknowledgments(self):
        talk = Talk(options=b"\x02\x04\x03\xe8")
        self.send(talk, 0)
        for number in range(4):
            self.send(talk, 0, bytes(1000))
            self.send(talk, 1)
        first = talk.next[0]
        self.send(talk, 0, b"a" * 1000, lost=True)
        for number in range(3):
            self.send(talk, 0, bytes([number]) * 1000)
            self.send(talk, 1, acknowledgment=first)
        talk.next[0], last = first, talk.next[0]
        self.send(talk, 0, b"a" * 1000)
        talk.next[0] = last
        self.send(talk, 1)
        said = "three duplicate acknowledgments came, the last one in packet 19 (RFC 5681, 3.2)"
        self.assertEqual(self.comments(self.ended(talk)), [{20: [PERMITTED + said]}])

    def test_version_6(self):
        begin = "tcpwit-judge: this retransmission is permitted at level recovery: "
        said = "three duplicate acknowledgments or SACK blocks showed a loss, the last ones in packet 11 (RFC 5681, " \
            "3.2; RFC 6675, 5)"
        self.assertEqual(self.comments(reporting(), "--version", "6"), [{12: [begin + said]}])
        for blocks in (True, False):
            self.assertEqual(self.comments(reporting(blocks), "--version", "6", "--level", "none"),
                             [{12: [f"tcpwit-judge: {UNJUDGED}"]}])

    def test_a_fin_without_data_in_version_6(self):
        talk = Talk()
        talk.send(0, FIN | ACK, lost=True)
        talk.next[0] -= 1
        talk.send(0, FIN | ACK)
        talk.send(1, FIN | ACK)
        talk.send(0)
        self.assertEqual(self.comments(talk, "--version", "6"),
                         [{5: ["tcpwit-judge: this retransmission is permitted at level recovery: a FIN without data "
                               "may be sent again at any time (RFC 9293, 3.10.4)"]}])

    def test_probes(self):
        talk = Talk()
        talk.send(0, payload=bytes(1000))
        self.send(talk, 1, window=0)
        for wait in (SECOND // 4, SECOND // 2):
            talk.at += wait
            self.send(talk, 0, b"y")
            talk.next[0] -= 1
            self.send(talk, 1, window=0)
        probe = "tcpwit-judge: this probe is permitted at level full: the window is closed, and the persist timer " \
            "expired at {} s (RFC 9293, 3.8.6.1)"
        self.assertEqual(self.comments(talk), [{6: [probe.format("0.260000")], 8: [probe.format("0.764000")]}])

    def test_what_was_refused(self):
        talk = Talk()
        talk.send(0, payload=b"first")
        talk.send(1, payload=b"hello")
        talk.at += 10 * SECOND
        talk.send(0, payload=b"more")
        late = "no acknowledgment is sent within half a second and the slack (ack-late); owed since packet 5 " \
            "(0.009000 s), due by 0.509000 s, with the slack by 1.509000 s, and late at 10.010000 s"
        rule = "[rule ack-late: RFC 9293, 3.8.6.3, 3.10.7.4; RFC 5681, 4.2]"
        self.assertEqual(self.comments(talk, "--level", "none"), [
            {5: [f"tcpwit-judge: no (none): here, a duty begins that is late: {late} {rule}"],
             6: [f"tcpwit-judge: no (none): before packet 6 (10.010000 s): {late} {rule}"]}])

    def test_it_is_judged_as_before(self):
        talk = Talk()
        self.comments(self.again(talk, b"hello", SECOND // 4))
        before = self.out
        status, out, _ = run(f"{self.folder}/c0.pcapng", "--host", "client")
        self.assertEqual((status, out), (0, before))

    def test_a_report_with_annotations(self):
        talk = Talk()
        self.assertEqual(len(self.comments(self.again(talk, b"hello", SECOND // 4), "--report", f"{self.folder}/kept")),
                         1)
        self.assertTrue(self.comments_in(f"{self.folder}/c0.pcapng"))


class Refused(WithCaptures):
    def test_a_refused_packet(self):
        answer = no("congestion", input_line=13)
        for level in answer["levels"]:
            level["sentence"] = "line 13 sends 9 bytes beyond the congestion window of 7 (congestion; RFC 5681, 3.1)."
        self.lab(answer, 1)
        with open(f"{self.folder}/lab", "r+", encoding="ascii") as file:
            # The case is the trace, without steps.
            script = file.read().replace("echo 'a case' > \"$word\"", f'cp {self.folder}/given "$word"')
            file.seek(0)
            file.write(script)
        name, = self.files(hosts=(0,))
        run(name, "--host", "client", "--lab", f"{self.folder}/lab", "--annotate", f"{self.folder}/made", "--version",
            "5")
        self.assertEqual(Answers.comments_in(f"{self.folder}/made"), {1: [
            "tcpwit-judge: no (full, none): this packet sends 9 bytes beyond the congestion window of 7 (congestion; "
            "RFC 5681, 3.1) [rule congestion: RFC 5681, 3.1, 3.2 (step 1); RFC 6928, 2]"]})


if __name__ == "__main__":
    unittest.main()
