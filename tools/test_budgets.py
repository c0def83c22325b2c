#!/usr/bin/python3
"""Tests tools/budgets.py on a small tree, and that budgets.txt has the date of the measured proofs."""
import collections
import contextlib
import io
import os
import re
import sys
import tempfile
import unittest
from unittest import mock

sys.dont_write_bytecode = True
sys.path.insert(0, os.path.dirname(os.path.abspath(__file__)))
import budgets  # noqa: E402

COSTS = """# Proving

## What proofs cost

| crate | proof | edits |
|---|---|---|
| `one` | 1,178 | 5 |
| `two` | 20 | - |

## Later
"""
TREE = {
    "crates.txt": "one:\ntwo: one\n",
    "crates/one/src/lib.rt": "pub fn first() {}\npub const fn second() {}\nfn third() {}\n",
    "crates/one/edits/first.a.edit": "",
    "crates/one/must-fail/first.b.edit": "",
    "crates/one/out/first.c.edit": "",
    "crates/two/src/main.rt": "pub fn fourth() {}\n",
    "docs/design/proving.md": COSTS,
    "docs/rows.md": "| `one::first` | first |\n| `second` | one |\n",
    "docs/out/built.md": "not counted\n",
    "tools/one.py": "1\n2\n",
    "tools/test_one.py": "1\n",
    "tools/tests/two.py": "1\n",
    "stacks/run": "1\n",
}


class Counts(unittest.TestCase):
    def setUp(self):
        folder = tempfile.TemporaryDirectory()
        self.addCleanup(folder.cleanup)
        for name, text in TREE.items():
            os.makedirs(os.path.dirname(f"{folder.name}/{name}"), exist_ok=True)
            with open(f"{folder.name}/{name}", "w", encoding="utf-8") as file:
                file.write(text)
        wings = (("Model", "", 0, "one"), ("Texts", "", 0, "two"))
        for target, value in ((budgets, {"TOP": folder.name}), (budgets.crate_map, {"WINGS": wings})):
            patch = mock.patch.multiple(target, **value)
            patch.start()
            self.addCleanup(patch.stop)

    def test_each_kind(self):
        self.assertEqual({name: count for name, (count, _) in budgets.counted().items()}, {
            "crates": 2, "lines of src in Model": 3, "lines of src in Texts": 1, "words of all pages": 40,
            "words of docs/design/proving.md": 30, "words of docs/rows.md": 10, "edits of one": 2, "edits of two": 0,
            "seconds to prove one": 1178, "seconds to prove two": 20, "lines of Python": 3,
            "public functions without a row": 1})


    def status(self, *options, crates):
        """The status of a run with this number of crates, and what the file's first line is then."""
        lines = [f"  {sum(count)}  {count[0]}  {name}  a reason\n" for name, count in budgets.counted().items()]
        with open(f"{budgets.TOP}/budgets.txt", "w", encoding="utf-8") as file:
            file.writelines([f"  {crates}  2  crates  a reason\n", *lines[1:]])
        with mock.patch.object(sys, "argv", ["budgets.py", *options]), contextlib.redirect_stdout(io.StringIO()), \
                self.assertRaises(SystemExit) as end:
            budgets.main()
        return end.exception.code, " ".join(budgets.read("budgets.txt").splitlines()[0].split())

    def test_the_status(self):
        self.assertEqual(self.status(crates=2), (0, "2 2 crates a reason"))
        self.assertEqual(self.status(crates=1), (1, "1 2 crates a reason"))
        self.assertEqual(self.status("--write", crates=1), (1, "1 2 crates a reason"))
        self.assertEqual(self.status("--write", crates=3), (0, "2 2 crates a reason"))


class Comparing(unittest.TestCase):
    TEXT = "# Words\n\n  10  10  crates    the house\n  101  100  words of a  a page\n  3  3  gone  none\n"

    def compared(self, **counts):
        """What is said if there are no other counts than these."""
        counts = {name.replace("_", " "): (count, spare) for name, (count, spare) in counts.items()}
        return budgets.compared(self.TEXT, collections.defaultdict(lambda: (0, 0), counts))

    def test_above(self):
        above, _ = self.compared(crates=(11, 0), words_of_a=(102, 2), new=(1, 1))
        self.assertEqual(above, ["crates: 11 are more than the 10 allowed",
                                 "words of a: 102 are more than the 101 allowed", "new: 1 are more than the 0 allowed"])

    def test_far_below(self):
        below = self.compared(crates=(10, 0), words_of_a=(98, 1))[1]
        self.assertEqual(below, ["gone: 0 are far fewer than the 3 allowed; --write lowers the number"])
        self.assertEqual(len(self.compared(crates=(9, 0), words_of_a=(97, 1), gone=(3, 0))[1]), 2)

    def test_the_lower_of_two_numbers_counts(self):
        text = self.TEXT + "  12  10  crates  the house\n"
        above, _ = budgets.compared(text, collections.defaultdict(lambda: (0, 0), {"crates": (11, 0)}))
        self.assertEqual(above, ["crates: 11 are more than the 10 allowed"])

    def test_write(self):
        counts = collections.defaultdict(lambda: (0, 0), {"crates": (12, 0), "words of a": (50, 1)})
        new = budgets.renewed(self.TEXT, counts)
        self.assertEqual([" ".join(row.split()) for row in new.splitlines()],
                         ["# Words", "", "10 12 crates the house", "51 50 words of a a page"])
        self.assertEqual(budgets.renewed(new, counts), new)


class Stored(unittest.TestCase):
    def test_the_date_of_the_measured_proofs(self):
        section = budgets.read("docs/design/proving.md").split("\n## What proofs cost\n")[1]
        date = re.search(r"\b\d+ [A-Z]\w+ \d{4}\b", section)[0]
        self.assertIn(f"measured on {date}", budgets.read("budgets.txt"), "write the page's date into budgets.txt")


if __name__ == "__main__":
    unittest.main()
