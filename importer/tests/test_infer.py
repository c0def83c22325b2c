"""Tests which calls are inferred from segments, and where."""
import unittest
from types import SimpleNamespace

from tcpwit_importer.capture.segments import ACK, FIN, RST, SYN
from tcpwit_importer.infer.streams import Stream

from . import inferred
from .wire import ONE, ZERO, Talk, segment

OPENED = ["B open 0 4000 80", "E ok 2", "O 0"]
LISTENED = ["B listen 1 80 0", "E ok 1"]


def client(calls):
    """What host 0 did and received, with the calls of socket 1."""
    return [call for call in calls if call[:3] in ("O 0", "I 0")]


class Calls(inferred.Inferring):
    def both(self, talk):
        """The trace of host 0 alone, and that of host 1 alone."""
        return (self.calls(talk, captures={0: "c0"}), self.calls(talk, captures={0: "c1"}, hosts=(1, 0)))

    def test_a_handshake(self):
        zero, one = self.both(Talk())
        self.assertEqual(zero, ["B open 0 4000 80", "E ok 1", "O 0", "I 0", "O 0"])
        self.assertEqual(one, ["B listen 0 80 0", "E ok 1", "I 0", "O 0", "I 0"])

    def test_bytes_and_their_end(self):
        talk = Talk()
        talk.send(0, payload=b"ab")
        talk.send(1)
        talk.send(0, FIN | ACK)
        talk.send(1, FIN | ACK)
        talk.send(0)
        zero, one = self.both(talk)
        self.assertEqual(zero[5:],
                         ["B send 1 6162", "E ok 2", "O 0", "I 0", "B shut 1", "E ok", "O 0", "I 0", "O 0",
                          "B recv 1 65535", "E eof", "B close 1", "E ok"])
        self.assertEqual(one[:3], ["B listen 0 80 0", "E ok 1", "B accept 1"])
        self.assertEqual(one[6:],
                         ["I 0", "O 0", "E ok 2", "B recv 2 65535", "E data 6162", "I 0", "B shut 2", "E ok", "O 0",
                          "B recv 2 65535", "E eof", "I 0", "B close 2", "E ok"])

    def test_both_hosts(self):
        talk = Talk()
        talk.send(1, payload=b"x")
        calls = self.calls(talk)
        self.assertEqual(calls[:4], ["B open 0 4000 80", "E ok 1", "O 0", "B listen 1 80 0"])
        self.assertIn("B send 3 78", calls)

    def test_a_retransmission_needs_no_call(self):
        talk = Talk()
        talk.send(0, payload=b"abc", lost=True)
        talk.next[0] -= 3
        talk.send(0, payload=b"abcd")
        calls = self.calls(talk, captures={0: "c0"})
        self.assertEqual([call for call in calls if call.startswith("B send")], ["B send 1 616263", "B send 1 64"])

    def test_only_what_arrived_is_received(self):
        # Host 0 acknowledges three bytes of which one never arrived.
        talk = Talk()
        talk.send(1, payload=b"ab")
        talk.send(1, payload=b"c", lost=True)
        talk.send(0)
        calls = self.calls(talk, captures={0: "c0"})
        self.assertEqual([call for call in calls if call.startswith("E data")], ["E data 6162"])

    def test_bytes_that_differ_are_not_received(self):
        talk = Talk()
        talk.send(1, payload=b"ab")
        talk.next[1] -= 2
        talk.send(1, payload=b"aX")
        talk.send(0)
        self.assertEqual([call for call in self.calls(talk, captures={0: "c0"}) if call.startswith("E data")],
                         ["E data 61"])

    def test_nothing_is_sent_after_the_end(self):
        talk = Talk()
        talk.send(0, FIN | ACK)
        talk.send(0, payload=b"late")
        self.assertNotIn("B send", " ".join(self.calls(talk, captures={0: "c0"})))

    def test_an_unanswered_syn_is_given_up(self):
        talk = Talk()
        talk.frames = {0: talk.frames[0][:1], 1: talk.frames[1][:0]}
        self.assertEqual(self.calls(talk, captures={0: "c0"}),
                         ["B open 0 4000 80", "E ok 1", "O 0", "B close 1", "E ok"])

    def test_a_refused_connection_has_no_listener(self):
        talk = Talk()
        talk.frames = {host: frames[:1] for host, frames in talk.frames.items()}
        talk.next[0] = 1001
        talk.at -= 4 * 10**6
        talk.send(1, RST | ACK)
        zero, one = self.both(talk)
        self.assertEqual((zero, one), (["B open 0 4000 80", "E ok 1", "O 0", "I 0"], ["I 0", "O 0"]))

    def test_a_syn_without_an_answer_may_be_dropped(self):
        talk = Talk()
        talk.frames = {host: frames[:1] for host, frames in talk.frames.items()}
        self.assertEqual(self.calls(talk, captures={0: "c1"}, hosts=(1, 0)), ["B listen 0 80 0", "E ok 1", "I 0"])

    def test_a_reset_is_an_abort(self):
        talk = Talk()
        talk.send(1, payload=b"ab")
        talk.send(1, RST | ACK)
        _, one = self.both(talk)
        self.assertEqual(one[6:], ["E ok 2", "B send 2 6162", "E ok 2", "O 0", "B abort 2", "E ok", "O 0"])

    def test_a_reset_after_a_fin_is_a_close(self):
        talk = Talk()
        talk.send(0, FIN | ACK)
        talk.send(1, payload=b"ab")
        talk.send(0, RST)
        zero, _ = self.both(talk)
        self.assertEqual(zero[-4:], ["I 0", "B close 1", "E ok", "O 0"])

    def test_a_reset_in_the_handshake_closes_the_listener(self):
        talk = Talk()
        talk.frames = {host: frames[:2] for host, frames in talk.frames.items()}
        talk.send(1, RST | ACK)
        _, one = self.both(talk)
        self.assertEqual(one, ["B listen 0 80 0", "E ok 1", "I 0", "O 0", "B close 1", "E ok", "O 0"])

    def test_a_reset_of_a_wrong_acknowledgment_is_no_call(self):
        # Host 0's SYN is answered by an acknowledgment of something else, and then sent again.
        talk = Talk()
        for host in (0, 1):
            talk.frames[host] = talk.frames[host][:1]
        talk.next = {0: 70, 1: 5000}
        talk.at = 101 * 10**9
        talk.send(1, SYN | ACK)
        talk.send(0, RST)
        talk.next[0] = 1000
        talk.send(0, SYN)
        zero = self.calls(talk, captures={0: "c0"})
        self.assertEqual(zero, ["B open 0 4000 80", "E ok 1", "O 0", "I 0", "O 0", "O 0", "B close 1", "E ok"])

    def test_a_simultaneous_open(self):
        talk = Talk()
        talk.frames = {host: frames[:1] for host, frames in talk.frames.items()}
        talk.next[1] = 5000
        talk.at = 100 * 10**9 + 5 * 10**5
        talk.send(1, SYN)
        calls = self.calls(talk)
        self.assertIn("B open 0 4000 80", calls)
        self.assertIn("B open 1 80 4000", calls)
        self.assertNotIn("B listen 1 80 0", calls)

    def test_bytes_after_a_simultaneous_open(self):
        talk = Talk()
        talk.frames = {host: frames[:1] for host, frames in talk.frames.items()}
        talk.next, talk.at = {0: 1000, 1: 5000}, 100 * 10**9 + 5 * 10**5
        talk.send(1, SYN)
        talk.next[0] = 1001
        talk.send(1, SYN | ACK, b"")
        talk.next = {0: 1001, 1: 5001}
        talk.send(0)
        talk.send(0, payload=b"ab")
        talk.send(1)
        talk.send(1, payload=b"cd")
        talk.send(0)
        calls = self.calls(talk)
        self.assertEqual([call for call in calls if " data " in call], ["E data 6162", "E data 6364"])
        self.assertEqual([call.split()[3] for call in calls if call.startswith("B send")], ["6162", "6364"])

    def test_a_long_segment_is_sent_by_one_call(self):
        talk = Talk()
        talk.send(0, payload=bytes(40000))
        calls = self.calls(talk, captures={0: "c0"})
        self.assertEqual(sum(call.startswith("B send") for call in calls), 1)
        self.assertEqual(calls[-1], "O 0")


class Early(inferred.Inferring):
    """A capture may show a segment some time after its host built it."""

    def setUp(self):
        """Leaves the time as it is."""

    def test_calls_begin_before_their_segments(self):
        talk = Talk()
        talk.at += 10**8
        talk.send(0, payload=b"ab")
        talk.at += 10**8
        talk.send(0, FIN | ACK)
        lines = [line.split(" ", 2) for line in self.trace(talk, captures={0: "c0"})[10:]]
        moments = {text.strip(): int(moment) for moment, _, text in lines}
        self.assertEqual([moments[call] - moments["B open 0 4000 80"]
                          for call in ("B send 1 6162", "E ok 2", "B shut 1", "E ok")],
                         [106000, 116000, 208000, 218000])

    def test_bytes_may_be_sent_before_an_arrival(self):
        talk = Talk()
        talk.send(0, payload=b"a")
        talk.send(1)
        talk.send(0, payload=b"b")
        calls = self.calls(talk, captures={0: "c0"})
        self.assertEqual(calls[4:], ["B send 1 61", "O 0", "E ok 1", "O 0", "B send 1 62", "I 0", "E ok 1", "O 0"])

    def test_an_end_is_not_before_an_arrival(self):
        talk = Talk()
        talk.send(1, FIN | ACK)
        talk.send(0, FIN | ACK)
        calls = self.calls(talk, captures={0: "c0"})
        self.assertEqual(calls[5:], ["I 0", "B shut 1", "E ok", "O 0", "B recv 1 65535", "E eof", "B close 1", "E ok"])

    def test_a_child_is_accepted_before_it_sends(self):
        talk = Talk()
        talk.send(1, payload=b"ab")
        calls = self.calls(talk, captures={0: "c1"}, hosts=(1, 0))
        self.assertEqual(calls[3:], ["I 0", "O 0", "I 0", "E ok 2", "B send 2 6162", "E ok 2", "O 0"])


class Cut(inferred.Inferring):
    """Captures with a snap length."""

    def cut(self, talk, host, number, missing):
        """The connection's packets, of which one lacks bytes at its end in a host's capture."""
        original = inferred.packets

        def packets(same, which):
            found = original(same, which)
            if which == host:
                found[number].missing = missing
                found[number].segment = found[number].segment[:-missing] + bytes(missing)
            return found
        inferred.packets = packets
        self.addCleanup(setattr, inferred, "packets", original)
        return talk

    def test_the_other_capture_completes_a_segment(self):
        talk = Talk()
        talk.send(0, payload=b"abcdef")
        self.cut(talk, 0, 3, 4)
        lines = self.trace(talk)
        self.assertIn("616263646566", next(line for line in lines if " B send" in line))
        self.assertEqual(len([line for line in lines if line.rstrip().endswith("616263646566")]), 3)
        self.assertEqual(list(self.notes.changed),
                         ["segments of which a capture has only the beginning, completed from other segments"])

    def test_zeros_complete_a_segment(self):
        talk = Talk()
        talk.send(0, payload=b"abcdef")
        self.cut(talk, 0, 3, 4)
        lines = self.trace(talk, captures={0: "c0"})
        self.assertIn("616200000000", next(line for line in lines if " B send" in line))
        self.assertEqual(list(self.notes.changed), ["segments of which no capture has all bytes, completed with zeros"])

    def test_many_segments_that_were_cut(self):
        # Each segment leaves a span of its own, in both captures. A search through all of them would take minutes.
        stream, count = Stream(1000), 30_000
        body = segment(ZERO, ONE, 1, 1, ACK, b"abcd" + bytes(6))
        found = [SimpleNamespace(number=1001 + 10 * at, flags=ACK, size=10, missing=6, segment=body)
                 for at in range(count)]
        for packet in found * 2:
            stream.add(packet)
        self.assertEqual(len(stream.spans), count)
        for at in range(count):
            self.assertTrue(stream.has(10 * at, 10 * at + 4))
            self.assertFalse(stream.has(10 * at + 4, 10 * at + 10))
            self.assertEqual(stream.bytes_of(10 * at + 2, 10),
                             b"cd" + bytes(6) + (b"ab" if at + 1 < count else bytes(2)))

    def test_many_segments_in_reverse_order(self):
        stream, count = Stream(1000), 30_000
        body = segment(ZERO, ONE, 1, 1, ACK, b"abcd")
        for at in reversed(range(count)):
            stream.add(SimpleNamespace(number=1001 + 4 * at, flags=ACK, size=4, missing=0, segment=body))
        self.assertEqual(len(stream.spans), 1)
        self.assertEqual(stream.bytes_of(2, 4 * count - 4), b"cd" + b"abcd" * (count - 2) + b"ab")

    def test_a_retransmission_has_the_same_bytes(self):
        talk = Talk()
        talk.send(0, payload=b"abcdef", lost=True)
        talk.next[0] -= 3
        talk.send(0, payload=b"def")
        self.cut(talk, 0, 3, 4)
        lines = self.trace(talk)
        self.assertIn("616200646566", next(line for line in lines if " B send" in line))


if __name__ == "__main__":
    unittest.main()
