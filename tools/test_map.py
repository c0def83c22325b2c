#!/usr/bin/python3
"""Tests tools/map.py: the picture of the crates in docs/design is the one that it draws, and each crate has a place."""
import os
import re
import sys
import unittest

TOP = os.path.dirname(os.path.dirname(os.path.abspath(__file__)))
sys.path.insert(0, f"{TOP}/tools")
import map as crate_map


def read(name):
    """The text of a file of the repository."""
    with open(os.path.join(TOP, name), encoding="utf-8") as file:
        return file.read()


class Map(unittest.TestCase):
    def setUp(self):
        self.uses = crate_map.uses_in(read("crates.txt"))

    def test_each_crate_is_in_one_wing(self):
        self.assertEqual(crate_map.mismatches(self.uses), [])

    def test_the_picture_is_current(self):
        stored = read("docs/design/crates.svg")
        self.assertEqual(stored, crate_map.drawn(self.uses), "run tools/map.py > docs/design/crates.svg")

    def test_a_crate_is_above_what_it_uses(self):
        texts = re.findall(r'<text x="[\d.]+" y="(\d+)">(\w+)</text>', crate_map.drawn(self.uses))
        heights = {name: int(y) for y, name in texts}
        self.assertEqual(set(heights), set(self.uses))
        for name, all_used in self.uses.items():
            for used in all_used:
                self.assertLess(heights[name], heights[used], f"{name} uses {used}")

    def test_a_crate_without_a_wing_is_named(self):
        self.assertEqual(crate_map.mismatches({**self.uses, "attic": ["cli"]}), ["attic"])


if __name__ == "__main__":
    unittest.main()
