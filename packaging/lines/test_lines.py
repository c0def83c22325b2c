#!/usr/bin/env python3
"""Tests tcpwit-junit, tcpwit-status and tcpwit-parts on the lines in docs/reference/formats.md and
examples/README.md."""
import os
import subprocess
import tempfile
import unittest
import xml.etree.ElementTree as tree

HERE = os.path.dirname(os.path.abspath(__file__))
EXAMPLES = os.path.join(os.path.dirname(os.path.dirname(HERE)), "examples")
YES, NO, BAD = "yes 18 13\n", "no 31 0 call-answer\n", "bad witness 7 0 7 cut\n"
# Each kind of line, with its status from section 9 of docs/reference/formats.md.
STATUSES = {YES: 0, NO: 1, BAD: 2, "bad trace 7 9 13 segment too-long\n": 2, "bad usage\n": 3, "bad memory\n": 4,
            "bad device\n": 5}


def run(name, *words, text=""):
    return subprocess.run([os.path.join(HERE, name), *words], input=text.encode(), capture_output=True, check=False)


class Status(unittest.TestCase):
    def test_each_line_has_the_status_of_the_program(self):
        for line, status in STATUSES.items():
            self.assertEqual((run("tcpwit-status", text=line).returncode, line), (status, line))

    def test_the_greatest_counts_and_the_lines_are_printed_again(self):
        for text, status in ((YES + NO + YES, 1), (NO + BAD, 2), (BAD + NO + YES, 2), ("", 0)):
            ran = run("tcpwit-status", text=text)
            self.assertEqual((ran.returncode, ran.stdout, ran.stderr), (status, text.encode(), b""))

    def test_lost_lines_are_seen(self):
        self.assertEqual(run("tcpwit-status", "--cases", "2", text=YES + NO).returncode, 1)
        ran = run("tcpwit-status", "--cases", "3", text=YES + NO)
        self.assertEqual((ran.returncode, ran.stderr), (5, b"tcpwit-status: expected 3 answers, got 2\n"))

    def test_other_lines_are_no_answers(self):
        for text in ("yes 18\n", "yes 018 13\n", "yes 18 13", "no 1 2\n", "\n", "ssh: lost\n", YES + "\n"):
            self.assertEqual((run("tcpwit-status", text=text).returncode, text), (5, text))

    def test_wrong_words(self):
        self.assertEqual(run("tcpwit-status", "--case", "x").returncode, 3)


class Report(unittest.TestCase):
    def test_each_kind(self):
        ran = run("tcpwit-junit", "a.case", "b <&\">.case", "c.case", text=YES + NO + BAD)
        suite = tree.fromstring(ran.stdout)
        self.assertEqual(ran.returncode, 2)
        self.assertEqual({key: suite.get(key) for key in ("name", "tests", "failures", "errors")},
                         {"name": "tcpwit", "tests": "3", "failures": "1", "errors": "1"})
        rows = [(case.get("name"), [(it.tag, it.get("message")) for it in case]) for case in suite]
        self.assertEqual(rows,
                         [("a.case", []), ("b <&\">.case", [("failure", NO.strip())]),
                          ("c.case", [("error", BAD.strip())])])

    def test_lost_lines_make_no_report(self):
        ran = run("tcpwit-junit", "a", "b", text=YES)
        self.assertEqual((ran.returncode, ran.stdout, ran.stderr),
                         (5, b"", b"tcpwit-junit: expected 2 answers, got 1\n"))
        self.assertEqual(run("tcpwit-junit", "a", text="ssh: lost\n").returncode, 5)

    def test_names_that_xml_has_no_character_for(self):
        ran = run("tcpwit-junit", b"a\xff\x01\n.case", text=YES)
        self.assertEqual(tree.fromstring(ran.stdout)[0].get("name"), "a\ufffd\ufffd\n.case")

    def test_words(self):
        self.assertEqual(run("tcpwit-junit", "--names", "x", "y").returncode, 3)
        self.assertEqual(run("tcpwit-junit", "--names", "/nowhere", text=YES).returncode, 5)


class Parts(unittest.TestCase):
    def cut(self, text, *words):
        with tempfile.TemporaryDirectory() as folder:
            ran = run("tcpwit-parts", *words, folder + "/parts", text=text)
            found = []
            for name in sorted(os.listdir(folder + "/parts")):
                with open(f"{folder}/parts/{name}") as file:
                    found.append((name, file.read()))
        return ran.stdout.decode(), found

    def test_files_have_whole_cases(self):
        said, found = self.cut("a\nend\nb\nend\nc\nend\nd\n", "--size", "8")
        self.assertEqual((said, found), ("2 4\n", [("00001", "a\nend\nb\nend\n"), ("00002", "c\nend\nd\n")]))

    def test_what_ends_a_case(self):
        self.assertEqual(self.cut("end\nend\n")[0], "1 2\n")
        self.assertEqual(self.cut("a\nend")[0], "1 1\n")
        self.assertEqual(self.cut("a\n end\nend \n")[0], "1 1\n")
        self.assertEqual(self.cut("")[0], "0 0\n")

    def test_a_folder_with_files_is_left_alone(self):
        self.assertEqual(run("tcpwit-parts", HERE, text="a\n").returncode, 5)


@unittest.skipUnless(os.access(os.environ.get("TCPWIT", ""), os.X_OK), "TCPWIT names no program")
class Program(unittest.TestCase):
    def test_many(self):
        names = ["handshake", "queue_full", "cut_text"]
        cases = b""
        for name in names:
            with open(os.path.join(EXAMPLES, name + ".case"), "rb") as file:
                text = file.read()
            cases += text + (b"" if text.endswith(b"\n") else b"\n") + b"end\n"
        many = subprocess.run([os.environ["TCPWIT"], "many", "--workers", "2"], input=cases, capture_output=True,
                              check=False)
        ran = run("tcpwit-junit", *names, text=many.stdout.decode())
        self.assertEqual(len(tree.fromstring(ran.stdout)), 3)
        self.assertEqual(ran.returncode, many.returncode)


if __name__ == "__main__":
    unittest.main()
