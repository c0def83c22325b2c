#!/usr/bin/python3
"""Tests that each sentence that the code writes by `Sheet::say` has a number for each `{}`. The compiler doesn't."""
import glob
import os
import re
import unittest

TOP = os.path.dirname(os.path.dirname(os.path.abspath(__file__)))
STRING = r'"(?:[^"\\]|\\.)*"'
CONSTANT = re.compile(rf"const ([A-Z_]+): &str =\s*({STRING});", re.S)
SAID = re.compile(rf"\.say\(\s*({STRING}|[A-Z_]+),\s*&\[", re.S)


def numbers_in(text):
    """How many values the list has that begins this text, after its bracket."""
    depth, count, is_open = 0, 0, False
    for letter in text:
        if letter == "]" and depth == 0:
            break
        depth += (letter in "([") - (letter in ")]")
        if letter == "," and depth == 0:
            is_open = False
        elif not letter.isspace() and not is_open:
            count, is_open = count + 1, True
    return count


def sentences(code):
    """Each sentence in the code, with how many numbers it gets."""
    constants = dict(CONSTANT.findall(code))
    for found in SAID.finditer(code):
        yield constants.get(found[1], found[1]), numbers_in(code[found.end():])


class Sentences(unittest.TestCase):
    def test_numbers(self):
        count = 0
        for path in sorted(glob.glob(f"{TOP}/crates/*/src/**/*.rt", recursive=True)):
            with open(path, encoding="utf-8") as file:
                code = file.read()
            for sentence, numbers in sentences(code):
                count += 1
                self.assertEqual(sentence.count("{}"), numbers, f"{os.path.relpath(path, TOP)}: {sentence}")
            self.assertEqual(len(re.findall(r"\.say\(\s*[\"A-Z]", code)), len(list(sentences(code))), path)
        self.assertGreater(count, 10)


if __name__ == "__main__":
    unittest.main()
