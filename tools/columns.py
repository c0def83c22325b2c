#!/usr/bin/env python3
"""Checks line widths: 120 columns in src and specs and in Python, 160 in proofs, 100 in the prose of pages.

    tools/columns.py            lists the files with more long lines than `tools/columns.txt` allows; the status is 1 if
                                there are any
    tools/columns.py --write    lowers the counts in that file to the current ones, but raises none
    tools/columns.py --anew     rewrites that file, for example after files were renamed; the sum of all counts may not
                                rise

A column is a character. The prose of a page excludes tables and blocks of commands or output. A line with a single word
may be wider. `tools/columns.txt` has a line for each file with long lines: their count and the file's name.
"""
import argparse
import glob
import os
import sys

TOP = os.path.dirname(os.path.dirname(os.path.abspath(__file__)))
BASELINE = os.path.join(TOP, "tools", "columns.txt")
# Files of Python whose names have no ending.
SCRIPTS = ("tcpwit", "test", "bench/run", "bindings/test", "bindings/c/build", "importer/tcpwit-*", "packaging/build",
           "packaging/lines/tcpwit-*", "stacks/run")
# The maximum width of lines, by files.
WIDTHS = (("crates/*/src/**/*.rt", 120), ("crates/*/specs/**/*.antt", 120), ("crates/*/proofs/**/*.antt", 160),
          ("tests/**/*.rt.txt", 120), ("**/*.py", 120), *((script, 120) for script in SCRIPTS), ("**/*.md", 100))
# The beginnings of lines in a page that aren't prose: tables, and blocks of commands, output or texts.
NO_PROSE = ("|", "    ")


def is_long(path, line, width):
    """Whether a line is too wide."""
    if len(line) <= width:
        return False
    return not path.endswith(".md") or not line.startswith(NO_PROSE) and " " in line.strip()


def long_lines():
    """The numbers of the lines that are too wide, for each file that has any."""
    found = {}
    for pattern, width in WIDTHS:
        for path in glob.glob(f"{TOP}/{pattern}", recursive=True):
            with open(path, encoding="utf-8") as file:
                numbers = [number for number, line in enumerate(file, 1) if is_long(path, line.rstrip("\n"), width)]
            if numbers and not os.path.islink(path):
                found[os.path.relpath(path, TOP)] = numbers
    return found


def allowed():
    """How many long lines each file may have."""
    if not os.path.exists(BASELINE):
        return {}
    with open(BASELINE, encoding="utf-8") as file:
        rows = [line.split(maxsplit=1) for line in file.read().splitlines()]
    return {path: int(count) for count, path in rows}


def write(counts):
    """Writes how many long lines each file may have."""
    with open(BASELINE, "w", encoding="utf-8") as file:
        file.writelines(f"{count} {path}\n" for path, count in sorted(counts.items()) if count)


def refused(found, limits):
    """The faults: a line for each file with more long lines than allowed."""
    for path, numbers in sorted(found.items()):
        limit = limits.get(path, 0)
        if len(numbers) > limit:
            yield f"{path}: {len(numbers)} long lines, {limit} are allowed: {', '.join(map(str, numbers))}"


def main():
    words = argparse.ArgumentParser(description=__doc__.splitlines()[0])
    words.add_argument("--write", action="store_true",
                       help="lower the counts in tools/columns.txt to the current ones, but raise none")
    words.add_argument("--anew", action="store_true",
                       help="rewrite tools/columns.txt; the sum of all counts may not rise")
    words = words.parse_args()
    found, limits = long_lines(), allowed()
    counts = {path: len(numbers) for path, numbers in found.items()}
    if words.anew and (not limits or sum(counts.values()) <= sum(limits.values())):
        write(counts)
        limits = counts
    elif words.write:
        limits = {path: min(limit, counts.get(path, 0)) for path, limit in limits.items()}
        write(limits)
    wrong = list(refused(found, limits))
    for text in wrong:
        print(text)
    spare = sum(limits.values()) - sum(min(limit, counts.get(path, 0)) for path, limit in limits.items())
    told = f"{sum(counts.values())} long lines in {len(counts)} files, {len(wrong)} files with more than they may have"
    print(f"columns: {told}" + (f"; {spare} fewer than allowed (--write lowers that)" if spare else ""))
    sys.exit(1 if wrong else 0)


if __name__ == "__main__":
    main()
