#!/usr/bin/python3
"""Compares what `tcpwit_lab judge` prints with the stored texts in crates/test_cases/data/judged.txt.

A text begins with a line `== STATUS NAME WORDS`: the status, the trace crates/test_cases/data/NAME.trace, and the words
after `judge`. If the words name a file for the case, `tcpwit check` must give it the verdict of the last level.
"""
import os
import shlex
import subprocess
import tempfile
import unittest

TOP = os.path.dirname(os.path.dirname(os.path.abspath(__file__)))
DATA = f"{TOP}/crates/test_cases/data"
TCPWIT = shlex.split(os.environ.get("TCPWIT", f"{TOP}/tcpwit"))
LAB = shlex.split(os.environ.get("TCPWIT_LAB", f"{TOP}/tcpwit_lab"))
LEVELS = ("full", "recovery", "none")


def stored_texts():
    """The status, the trace, the words after `judge` and the text of each block."""
    with open(f"{DATA}/judged.txt", encoding="utf-8") as file:
        blocks = file.read().split("== ")[1:]
    for block in blocks:
        head, text = block.split("\n", 1)
        status, name, *words = head.split(" ")
        yield int(status), name, words, text


class Judged(unittest.TestCase):
    def test_stored_texts(self):
        count = 0
        for status, name, words, text in stored_texts():
            with self.subTest(f"judge {name} {' '.join(words)}"), tempfile.TemporaryDirectory() as folder:
                with open(f"{DATA}/{name}.trace", "rb") as trace:
                    ran = subprocess.run([*LAB, "judge", *words], stdin=trace, capture_output=True, check=False,
                                         timeout=60, cwd=folder)
                self.assertEqual((ran.stdout.decode(), ran.returncode), (text, status))
                kept = os.listdir(folder)
                if kept:
                    self.assertEqual(self.verdict_on(f"{folder}/{kept[0]}"), self.last_verdict(text))
            count += 1
        self.assertGreater(count, 50)

    def verdict_on(self, path):
        with open(path, "rb") as case:
            ran = subprocess.run([*TCPWIT, "check"], stdin=case, capture_output=True, check=False, timeout=60)
            return ran.stdout.decode().strip()

    def last_verdict(self, text):
        rows = [line for line in text.splitlines() if line.split(" ", 1)[0] in LEVELS]
        return rows[-1].split(None, 1)[1]


if __name__ == "__main__":
    unittest.main()
