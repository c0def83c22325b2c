#!/usr/bin/env python3
"""Checks texts that are far too long, and prints the answer to each, with time and memory.

    python3 bench/huge_texts.py PROGRAM [--only WORD]

Each text is given to `check` or `many`, and as two files. If an answer is wrong, the last lines report it, and the
status is 1. The largest text takes 200 megabytes on disk.
"""

import argparse
import os
import sys
import tempfile

from compare import Cost

HEADER = b"trace 1\nskew 0\nmsl 120000000\ngrain 1000\nminrto 1000000\nextra 0\n"
WITNESS = b"witness 1\n"
LINE = b"10 1 B status 5\n"
STEP = b"10 D 1 badsocket\n"
MOST_LINES = 10_000_000
LONG = 200_000_000
EMPTY_LINES = 20_000_000
PIECE = 1_000_000

# A name; what is repeated and how often, with the text before and after it, in the trace or the witness; the answer.
TRACES = [("10,000,000 lines", HEADER, LINE, MOST_LINES - 6, b"", "bad witness 1 0 0 header"),
          ("10,000,001 lines", HEADER, LINE, MOST_LINES - 5, b"", "bad trace 10000001 0 15 too-many-lines"),
          ("a line of 200,000,000 letters", HEADER, b"a", LONG, b"\n", "bad trace 7 0 200000000 line-too-long"),
          ("the same without LF", HEADER, b"a", LONG, b"", "bad trace 7 0 200000000 line-too-long"),
          ("a field of 139,990 digits in each of 1,000 lines", HEADER, b"9" * 139_990 + b" 1 B\n", 1_000, b"",
           "bad trace 7 0 139990 number"),
          ("20,000,000 empty lines", b"", b"\n", EMPTY_LINES, b"", "bad trace 1 0 0 header"),
          ("20,000,000 empty lines after the header", HEADER, b"\n", EMPTY_LINES, b"", "bad trace 7 0 0 field"),
          ("200,000,000 NULs", b"", b"\0", LONG, b"", "bad trace 1 0 200000000 line-too-long"),
          ("200,000,000 CRs", b"", b"\r", LONG, b"", "bad trace 1 0 200000000 line-too-long"),
          ("200,000,000 CRs before an LF", HEADER, b"\r", LONG, b"\n", "bad trace 7 0 199999999 line-too-long"),
          ("100,000,000 spaces", HEADER, b" ", LONG // 2, b"\n", "bad trace 7 0 100000000 line-too-long"),
          ("1,400 lines of 140,000 spaces", HEADER, b" " * 140_000 + b"\n", 1_400, b"", "bad trace 7 0 0 field")]
WITNESSES = [
    ("10,000,001 lines of a witness", WITNESS, STEP, MOST_LINES, b"", "bad witness 10000001 0 16 too-many-lines"),
    ("10,000,000 lines of a witness", WITNESS, STEP, MOST_LINES - 1, b"", "no 2 0 no-call"),
    ("20,000,000 empty lines of a witness", WITNESS, b"\n", EMPTY_LINES, b"", "bad witness 2 0 0 field"),
    ("a step of 200,000,000 letters", WITNESS, b"a", LONG, b"\n", "bad witness 2 0 200000000 line-too-long"),
]
MANY = [
    ("2,000,000 ends", b"", b"end\n", 2_000_000, b"", "bad trace 1 0 0 header"),
    ("`many`: 200,000,000 letters", b"", b"a", LONG, b"\nend\n", "bad trace 1 0 200000000 line-too-long"),
]


def write(path, first, repeated, count, last):
    with open(path, "wb") as text:
        text.write(first)
        each = max(1, PIECE // len(repeated))
        for begin in range(0, count, each):
            text.write(repeated * min(each, count - begin))
        text.write(last)


def ran(name, way, words, path, wanted):
    """Prints the cost of a run. Returns what is wrong with it."""
    cost = Cost()
    cost.run(words, path)
    lines = cost.printed.decode(errors="replace").splitlines()
    print(f"| {name} | {way} | {wanted} | {cost.seconds:.2f} s | {cost.megabytes:.0f} MB |", flush=True)
    return [] if lines and set(lines) == {wanted} else [f"{name}, {way}: {lines[:2]} instead of {wanted!r}"]


def main():
    parser = argparse.ArgumentParser(description=__doc__.splitlines()[0])
    parser.add_argument("program", metavar="PROGRAM", help="the program tcpwit")
    parser.add_argument("--only", metavar="WORD", default="", help="run only the texts with this word in their name")
    given = parser.parse_args()
    program = os.path.abspath(given.program)
    wrong = []
    print("| text | way | answer | time | memory |\n|" + "---|" * 5)
    with tempfile.TemporaryDirectory() as folder:
        path, other = os.path.join(folder, "text"), os.path.join(folder, "other")
        for name, *parts, wanted in TRACES + WITNESSES:
            if given.only not in name:
                continue
            is_trace = parts[0] != WITNESS
            write(path, *parts)
            files = [program, "check", "--trace", path if is_trace else other, "--witness", other if is_trace else path]
            write(other, WITNESS if is_trace else HEADER, b"\n", 0, b"")
            wrong += ran(name, "two files", files, os.devnull,
                         wanted if wanted != "bad witness 1 0 0 header" else "no 0 7 unplaced")
            if not is_trace:
                write(path, HEADER + parts[0], *parts[1:])
            wrong += ran(name, "check", [program, "check"], path, wanted)
        for name, *parts, wanted in MANY:
            if given.only in name:
                write(path, *parts)
                wrong += ran(name, "many", [program, "many", "--workers", "2"], path, wanted)
    for line in wrong:
        print(line)
    return 1 if wrong else 0


if __name__ == "__main__":
    sys.exit(main())
