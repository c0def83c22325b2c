#!/usr/bin/python3
"""The cases in examples/, and those that `rt ci` gives to `tcpwit`, are those that the program test_cases checks."""
import os
import re
import sys
import unittest

TOP = os.path.dirname(os.path.dirname(os.path.abspath(__file__)))
sys.path.insert(0, f"{TOP}/tools")
import rule_names  # noqa: E402

CHECKED = f"{TOP}/crates/test_cases/data"
# The name of a copy, if it isn't that of the example.
COPIES = {
    "handshake.case": "examples/handshake_and_five_bytes.case",
    "queue_full.case": "queue-full-backlog-1-extra-0-child-2.case",
}
# Examples without a copy, and the page that writes the same case and checks it.
PAGES = {"first.case": "docs/start/first-case.md"}


def read(path):
    """The text of a file."""
    with open(path, encoding="ascii") as file:
        return file.read()


def read_bytes(path):
    """The bytes of a file."""
    with open(path, "rb") as file:
        return file.read()


class Examples(unittest.TestCase):
    def test_each_is_a_copy(self):
        names = sorted(name for name in os.listdir(f"{TOP}/examples") if name.endswith(".case"))
        self.assertEqual([name for name in [*COPIES, *PAGES] if name not in names], [])
        for name in names:
            if name not in PAGES:
                self.assertEqual(read(f"{TOP}/examples/{name}"),
                                 read(f"{CHECKED}/{COPIES.get(name, f'examples/{name}')}"), name)

    def test_the_others_are_written_by_a_page(self):
        for name, page in PAGES.items():
            text = "".join(f"    {line}\n" for line in read(f"{TOP}/examples/{name}").splitlines())
            self.assertIn(f"    cat > {name} << 'EOT'\n{text}    EOT\n    ./tcpwit check < {name}\n\n    yes ",
                          read(f"{TOP}/{page}"))

    def test_each_copy_has_an_example(self):
        copies = {os.path.basename(COPIES.get(name, name)) for name in os.listdir(f"{TOP}/examples")}
        self.assertEqual([name for name in os.listdir(f"{CHECKED}/examples") if name not in copies], [])


class GateCases(unittest.TestCase):
    """`rt ci` runs `tcpwit many` on cases, as both compilers build it."""

    def test_each_is_a_case_file_with_its_answer(self):
        expected = [line.split("\t") for line in read(f"{CHECKED}/expected.txt").splitlines()]
        answers = {read_bytes(f"{CHECKED}/{name}.case"): answer for name, answer in expected}
        cases = re.split(rb"(?m)^end\n", read_bytes(f"{TOP}/crates/tcpwit/stdin"))
        self.assertEqual([case for case in cases if case not in answers], [])
        self.assertEqual([answers[case] for case in cases], read(f"{TOP}/crates/tcpwit/stdout").splitlines())
        self.assertGreaterEqual(len(cases), 40)
        for version in range(1, 7):
            self.assertTrue(any(case.startswith(b"trace %d\n" % version) for case in cases), version)

    def test_each_rule_has_one(self):
        rules = rule_names.rules_in(rule_names.read(rule_names.SOURCE), rule_names.read(rule_names.NUMBERS))
        found = {line.split()[-1] for line in read(f"{TOP}/crates/tcpwit/stdout").splitlines()}
        self.assertEqual([rule.name for rule in rules if rule.name not in found], [])


if __name__ == "__main__":
    unittest.main()
