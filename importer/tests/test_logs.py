"""Tests reading logs of strace and the arguments of calls."""
import os
import tempfile
import unittest

from tcpwit_importer.calls.strace_log import Exit, read_log
from tcpwit_importer.calls.strace_words import Call, Text, arguments, whole_number
from tcpwit_importer.problem import Problem


class Words(unittest.TestCase):
    def test_arguments(self):
        rows = (
            (r'5, "\x41\x42"..., 100', ["5", Text(b"AB", True), "100"]),
            (r'5, "a\n\"\\", 4', ["5", Text(b'a\n"\\', False), "4"]),
            (r'5, "", 0', ["5", Text(b"", False), "0"]),
            ("5<TCP:[127.0.0.1:80->127.0.0.1:4000]>, SHUT_WR", ["5", "SHUT_WR"]),
            ("3, SOL_SOCKET, SO_ERROR, [ECONNREFUSED], [16 => 28]",
             ["3", "SOL_SOCKET", "SO_ERROR", ["ECONNREFUSED"], ["16"]]),
            ("3, {sin_port=htons(80)}, 16", ["3", {"sin_port": Call("htons", ["80"])}, "16"]),
            ("{flags=CLONE_VM|CLONE_FILES, stack=0x7f} => {parent_tid=[5]}, 88",
             [{"flags": "CLONE_VM|CLONE_FILES", "stack": "0x7f"}, "88"]),
            (r'5, [{iov_base="a", iov_len=1}, {iov_base="bc"..., iov_len=9}], 2',
             ["5", [{"iov_base": Text(b"a", False), "iov_len": "1"}, {"iov_base": Text(b"bc", True), "iov_len": "9"}],
              "2"]),
            ("5, NULL /* nothing */, 0x10", ["5", "NULL", "0x10"]),
            ("5, ", ["5"]),
            ("", []),
        )
        for text, wanted in rows:
            with self.subTest(text=text):
                self.assertEqual(arguments(text), wanted)

    def test_anything_ends(self):
        for text in ("{[(", ")]}", '"', '"\\', "a=(", "=,=", "5<TCP"):
            arguments(text)

    def test_whole_numbers(self):
        self.assertEqual([whole_number(text) for text in ("12", "0x10", "-1", "12 /* x */", "AF", None)],
                         [12, 16, -1, 12, None, None])


class Logs(unittest.TestCase):
    def setUp(self):
        folder = tempfile.TemporaryDirectory()
        self.addCleanup(folder.cleanup)
        self.name = os.path.join(folder.name, "s.log")

    def read(self, text):
        with open(self.name, "w", encoding="ascii") as file:
            file.write(text)
        return read_log([self.name])

    def test_a_call_has_ended_by_the_next_line(self):
        found = self.read('7 5.000000100 read(3, "", 9) = 0 <0.000001>\n8 5.000000900 close(4) = 0\n'
                          '7 5.1 read(3, "", 9) = 0\n')
        self.assertEqual([(call.process, call.begin, call.end) for call in found[:2]],
                         [(7, 5_000_000_100, 5_000_000_900), (8, 5_000_000_900, 5_100_000_999)])

    def test_what_is_printed_about_a_returned_descriptor(self):
        found = self.read("7 5.1 accept(3<TCP:[10.9.0.2:80]>, NULL, NULL) = 4<TCP:[10.9.0.2:80->10.9.0.1:4000]>\n"
                          "7 5.2 dup(4) = 5\n"
                          "7 5.3 pidfd_getfd(6, 4, 0 <unfinished ...>\n7 5.4 <... pidfd_getfd resumed>) = 7<TCP:[1]>\n")
        self.assertEqual([(call.result, call.file) for call in found],
                         [(4, "TCP:[10.9.0.2:80->10.9.0.1:4000]"), (5, ""), (7, "TCP:[1]")])
        self.assertEqual(found[2].when, found[2].end)

    def test_microseconds_are_lower_bounds(self):
        found = self.read("7 5.000001 close(3) = 0\n7 5.000002 close(4) = 0\n")
        self.assertEqual((found[0].begin, found[0].end), (5_000_001_000, 5_000_002_999))

    def test_a_call_in_two_parts(self):
        found = self.read("7 5.1 read(3,  <unfinished ...>\n8 5.2 close(4) = 0\n"
                          '7 5.3 <... read resumed>"\\x41", 9) = 1\n')
        call = found[0]
        self.assertEqual((call.name, call.text, call.begin, call.end // 10**8, call.result),
                         ("read", '3,"\\x41", 9', 5_100_000_000, 53, 1))

    def test_what_did_not_end(self):
        found = self.read("7 5.1 accept(3,  <unfinished ...>\n7 5.2 +++ killed by SIGKILL +++\n")
        self.assertEqual((found[0].end, found[0].result), (None, None))
        self.assertIsInstance(found[1], Exit)
        self.assertEqual(found[1].begin, 5_100_000_000)

    def test_errors_and_columns(self):
        for head in ("", "7 ", "[pid     7] "):
            found = self.read(head + "5.1 connect(3, x, 16) = -1 EINPROGRESS (Operation now in progress) <0.1>\n")
            self.assertEqual((found[0].result, found[0].error), (-1, "EINPROGRESS"))
        found = self.read("7 5.1 read(3, 0x7f, 9) = ? ERESTARTSYS (To be restarted if SA_RESTART is set)\n")
        self.assertEqual(found[0].error, "ERESTARTSYS")

    def test_refusals(self):
        for text, words in (("", "no system call"), ("7 12:00:01.5 close(3) = 0\n", "no moment in seconds since 1970"),
                            ("close(3) = 0\n", "no moment")):
            with self.subTest(text=text), self.assertRaises(Problem) as caught:
                self.read(text)
            self.assertIn(words, str(caught.exception))
        with self.assertRaises(Problem):
            read_log([self.name + ".not"])


if __name__ == "__main__":
    unittest.main()
