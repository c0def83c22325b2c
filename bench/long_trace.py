#!/usr/bin/env python3
"""Writes a long trace of event lines of about 30 bytes to standard output, in all forms.

    python3 bench/long_trace.py [LINES]

LINES is the number of event lines (default: 1,000,000, a text of 31.8 million bytes). The last line lacks its LF, so
the trace is read to its end and then refused; with N lines, the answer is `bad trace A 0 14 cut` with A = N + 6. No
step is checked, so this times only the reading.
"""

import sys

LINES = 1_000_000
SYN = "0fa00050fffffffe000000005002ffff00000000"

HEADER = ["trace 1", "skew 0", "msl 120000000", "grain 1000", "minrto 1000000", "extra 0"]

# Ten lines, two of them with the bytes of a segment; the moment goes before each.
FORMS = [
    "1 B listen 0 80 128",
    "1 E ok 4294967295",
    "2 B send 6 68656c6c6f",
    "2 E ok 5",
    f"3 O 0 {SYN}",
    f"4 I 1 {SYN}",
    "1 B recv 7 100",
    "1 E data 68656c6c6f",
    "9 T 0 4000 80 rto",
    "2 E state ESTABLISHED",
]


def main():
    if "--help" in sys.argv:
        print(__doc__.strip())
        return
    lines = int(sys.argv[1]) if len(sys.argv) > 1 else LINES
    write = sys.stdout.write
    write("".join(line + "\n" for line in HEADER))
    for place in range(lines - 1):
        write(f"{1_000_000 + place} {FORMS[place % len(FORMS)]}\n")
    write("2000000 1 E ok")


if __name__ == "__main__":
    main()
