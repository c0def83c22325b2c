"""Tests which connections tcpwit-judge doesn't judge, and that each reason names a packet."""
import os
import unittest

from tcpwit_importer.capture.segments import ACK, FIN, RST, SYN, are_damaged

from . import links
from .test_judge import NO, WithCaptures, run
from .wire import SECOND, SIZE, Talk, pcap

HOST = ["--host", "client"]
NAME = "10.9.0.1:4000 -> 10.9.0.2:80   "


class Refusals(WithCaptures):
    def reason(self, *files, words=(), answer=None):
        """Why the only connection isn't judged. Without an answer, the program isn't asked."""
        status, out, error = run(*files, *words, *self.lab(answer or "not asked", 2))
        self.assertEqual((status, error), (2, ""))
        self.assertTrue(out.startswith(NAME + "not judged: "), out)
        return out.splitlines()[0].removeprefix(NAME + "not judged: ").replace(self.folder + "/", "")

    def of_client(self, talk, answer=None):
        """Why the client's capture isn't judged."""
        return self.reason(*self.files(talk, (0,)), words=HOST, answer=answer)

    def without(self, *flags, host=None):
        """The client's capture without the packets that have these flags, or without those of a host."""
        frames = self.talk.frames[0]
        self.talk.frames[0] = [frame for frame in frames if frame[1][47] not in flags
                               and (host is None or frame[1][29] != host)]
        return self.talk

    def test_one_direction(self):
        self.assertEqual(self.of_client(self.without(host=2)), "the capture has one direction only: packet 2 "
                         "acknowledges a packet of 10.9.0.2:80, and it has none of these")

    def test_one_direction_in_one_of_two_captures(self):
        self.without(host=2)
        self.assertIn("one direction only: packet 2 of c0.pcap acknowledges", self.reason(*self.files()))

    def test_a_missing_syn_ack(self):
        for number, host in ((2, 1), (3, 2)):
            self.setUp()
            if host == 2:
                # A segment of the server comes before the client's first acknowledgment.
                self.talk.frames[0][2:2] = [self.talk.frames[0][4]]
            self.assertEqual(self.of_client(self.without(SYN | ACK)), "the capture lacks the SYN-ACK of 10.9.0.2:80, "
                             f"which packet {number} acknowledges")

    def test_a_syn_without_an_answer_is_judged(self):
        for flags in ((), (RST,), (RST | ACK,)):
            self.talk.frames[0] = self.talk.frames[0][:1]
            for each in flags:
                self.talk.send(0, each)
            self.assertEqual(run(*self.files(hosts=(0,)), *HOST, *self.lab())[0], 0)

    def test_headers_that_a_snap_length_cut(self):
        frames = Talk(options=SIZE + bytes(36)).frames[0]
        for length, number in ((54, 1), (50, 1), (48, 1)):
            with open(f"{self.folder}/cut.pcap", "wb") as file:
                file.write(links.pcap_file([(moment, *links.cut(frame, length)) for moment, frame in frames]))
            self.assertEqual(self.reason(f"{self.folder}/cut.pcap", words=HOST),
                             f"the capture cut the TCP header of packet {number}: capture with -s 96 or more")

    def test_a_header_of_which_only_the_ports_are_left(self):
        with open(f"{self.folder}/cut.pcap", "wb") as file:
            file.write(links.pcap_file([(moment, *links.cut(frame, 45)) for moment, frame in self.talk.frames[0]]))
        self.assertEqual(self.fails(f"{self.folder}/cut.pcap", *HOST, *self.lab()), f"tcpwit-judge: {self.folder}/cut."
                         f"pcap: the capture cut all TCP headers (first: {self.folder}/cut.pcap, packet 1)")

    def test_an_option_of_a_wrong_length(self):
        self.talk.send(0, ACK, options=b"\x05\x09\0\0")
        self.assertEqual(self.of_client(self.talk), "packet 8 has a TCP option of a wrong length")
        for wrong in (b"\x05\x01", b"\x05\0", b"\x05", b"\x01\x05\x04\0", SIZE + b"\x03"):
            self.assertTrue(are_damaged(wrong), wrong)
        for right in (b"", SIZE, b"\x01\x01\x05\x02", SIZE + b"\0\x05\x01", b"\x01"):
            self.assertFalse(are_damaged(right), right)

    def test_port_zero(self):
        for zero, one in ((("10.9.0.1", 0), ("10.9.0.2", 80)), (("10.9.0.1", 4000), ("10.9.0.2", 0))):
            pcap(f"{self.folder}/zero.pcap", Talk(zero, one).frames[0])
            _, out, _ = run(f"{self.folder}/zero.pcap", *HOST, *self.lab("not asked", 2))
            self.assertIn("   not judged: packet 1 has port 0, which no connection can have\n", out)

    def test_clocks_that_were_set(self):
        for number in range(4):
            self.talk.send(number % 2, payload=b"more")
        # More than a skew may be: 1,000 seconds.
        self.talk.frames[1] = [(moment + (2000 * SECOND if place > 5 else 0), frame)
                               for place, (moment, frame) in enumerate(self.talk.frames[1])]
        self.talk.frames[1] += [(moment + 4000 * SECOND, frame) for moment, frame in Talk(at=200 * SECOND).frames[1]]
        self.assertRegex(self.reason(*self.files()), r"the clocks of the two captures differ by \d+\.\d seconds more")

    def test_a_fault_of_the_trace(self):
        for line, kind, where in ((13, "segment short", " (packet 1)"), (11, "hex", ""), (3, "number", "")):
            said = self.of_client(self.talk, {"status": 2, "said": [f"bad trace {line} 0 1 {kind}"]})
            self.assertEqual(said, f"no trace can have this connection{where}: {kind}; this is a bug: report it with "
                             "the capture")
        self.assertEqual(self.of_client(self.talk, {"said": ["bad trace 13 0 1 number"]}),
                         "packet 1 was captured at a moment too far from that of the first packet")
        self.assertEqual(self.of_client(self.talk, {"said": ["bad trace 10000001 0 1 too-many-lines"]}),
                         "its trace would have more than 10,000,000 lines")


class Extensions(WithCaptures):
    def judged(self, talk, *words):
        """The reason after a no, or the verdict."""
        _, out, _ = run(*self.files(talk, (0,)), *HOST, *words, *self.lab(NO, 1))
        return out.splitlines()[0].removeprefix(NAME)

    def with_syn(self, payload=b"", options=SIZE, answer=SIZE):
        """A connection that begins with these options and this payload on the SYN."""
        talk = Talk()
        talk.frames, talk.next, talk.at = {0: [], 1: []}, {0: 1000, 1: 5000}, 100 * SECOND
        talk.send(0, SYN, payload, options)
        talk.send(1, SYN | ACK, options=answer)
        talk.send(0)
        talk.send(0, FIN | ACK)
        return talk

    def test_data_on_a_syn(self):
        cookie = SIZE + b"\x22\x0acookie!!\x01\x01"
        for options, said in ((SIZE, ""), (cookie, ", with the option TCP Fast Open")):
            self.assertEqual(self.judged(self.with_syn(b"hello", options)),
                             f"not judged: data on a SYN (packet 1{said})")
        # A cookie alone changes nothing.
        self.assertIn("none      no ack-late", self.judged(self.with_syn(options=cookie)))

    def test_multipath(self):
        capable = SIZE + b"\x1e\x04\x01\x01"
        self.assertEqual(self.judged(self.with_syn(options=capable, answer=capable)),
                         "not judged: multipath TCP (packet 1 has its option)")
        # The server has no multipath.
        self.assertIn("none      no ack-late", self.judged(self.with_syn(options=capable)))

    def test_a_yes_stays(self):
        name, = self.files(self.with_syn(b"hello"), (0,))
        self.assertIn("   full      yes 57 88", run(name, *HOST, *self.lab())[1])

    def test_the_report_has_no_files_of_it(self):
        self.judged(self.with_syn(b"hello"), "--report", f"{self.folder}/kept")
        self.assertEqual(os.listdir(f"{self.folder}/kept"), ["index.html"])


if __name__ == "__main__":
    unittest.main()
