#!/usr/bin/python3
"""Checks that no count is above its number in budgets.txt.

    tools/budgets.py            prints the counts above their number, and those far below it; the status is 1 if one is
                                above
    tools/budgets.py --write    writes today's counts, and lowers the numbers that are far above them, but raises none

A line of budgets.txt has the number that is allowed, today's count, a name, and the reason. What has no line may count
nothing. KINDS says what is counted; seconds are those of the table in docs/design/proving.md, "What proofs cost".
"""
import argparse
import collections
import glob
import math
import os
import re
import sys

sys.dont_write_bytecode = True
sys.path.insert(0, os.path.dirname(os.path.abspath(__file__)))
import columns  # noqa: E402
import docs  # noqa: E402
import map as crate_map  # noqa: E402

TOP = os.path.dirname(os.path.dirname(os.path.abspath(__file__)))
PUBLIC = re.compile(r'^\s*pub (?:const |unsafe |extern "C" )*fn (\w+)', re.M)


def read(path):
    """The text of a file of the repository."""
    with open(os.path.join(TOP, path), encoding="utf-8") as file:
        return file.read()


def files(*patterns):
    """The files of the repository that match one of these patterns, without what is built."""
    found = {path for pattern in patterns for path in glob.glob(pattern, root_dir=TOP, recursive=True)}
    return sorted(path for path in found if not docs.BUILT.search(path))


def lines_of(paths):
    """How many lines these files have together."""
    return sum(read(path).count("\n") for path in paths)


# What is counted: each of these functions gives names with their counts.
def crates():
    yield "crates", len(crate_map.uses_in(read("crates.txt")))


def source_lines():
    for wing, _, _, names in crate_map.WINGS:
        yield f"lines of src in {wing}", lines_of(files(*(f"crates/{name}/src/**/*.rt" for name in names.split())))


def words():
    counts = {page: len(read(page).split()) for page in files("**/*.md")}
    yield "words of all pages", sum(counts.values())
    for page, count in counts.items():
        yield f"words of {page}", count


def edits():
    for crate in files("crates/*"):
        yield f"edits of {crate[7:]}", len(files(f"{crate}/edits/*.edit", f"{crate}/must-fail/*.edit"))


def proof_seconds():
    section = read("docs/design/proving.md").split("\n## What proofs cost\n")[1].split("\n## ")[0]
    for crate, seconds in re.findall(r"^\| (.*?) +\| ([\d,]+) \|", section.split("| crate | proof |")[1], re.M):
        yield f"seconds to prove {crate.replace('`', '')}", int(seconds.replace(",", ""))


def python_lines():
    paths = files("**/*.py", *columns.SCRIPTS)
    yield "lines of Python", lines_of(path for path in paths if not re.search(r"(^|/)(test_[^/]*|tests/.*)$", path))


def functions():
    lines = [line for page in files("docs/**/*.md") for line in read(page).splitlines() if line.startswith("|")]
    rows = [set(re.findall(r"\w+", " ".join(re.findall(r"`([^`]+)`", line)))) for line in lines]
    programs = [path.removesuffix("main.rt") for path in files("crates/*/src/main.rt")]
    sources = [path for path in files("crates/*/src/**/*.rt") if not path.startswith(tuple(programs))]
    found = [{path.split("/")[1], name} for path in sources for name in PUBLIC.findall(read(path))]
    yield "public functions without a row", sum(not any(names <= row for row in rows) for names in found)


# What is counted, and how many percent more than its count a number is when it is lowered.
KINDS = ((crates, 0), (source_lines, 1), (words, 1), (edits, 0), (proof_seconds, 10), (python_lines, 1), (functions, 0))


def counted():
    """Each name with its count, and with what its number may be more than that."""
    found = {name: (count, math.ceil(count * percent / 100)) for kind, percent in KINDS for name, count in kind()}
    return collections.defaultdict(lambda: (0, 0), found)


def fields(row):
    """The number, the name and the reason in a row of budgets.txt, or None if it's empty or a comment."""
    if not row or row[0] == "#":
        return None
    limit, _, name, reason = re.split(r" {2,}", row.strip(), maxsplit=3)
    return int(limit), name, reason


def is_far(limit, count, spare):
    """Whether a number is so far above its count that it's lowered."""
    return limit > count + 3 * spare


def renewed(text, counts):
    """The text with today's counts and lower numbers. A line whose number becomes 0 is left out."""
    rows = text.splitlines()
    for at, row in enumerate(rows):
        if fields(row):
            limit, name, reason = fields(row)
            limit = sum(counts[name]) if is_far(limit, *counts[name]) else limit
            rows[at] = f"{limit:7}  {counts[name][0]:7}  {name:46}  {reason}" if limit else None
    return "".join(f"{row}\n" for row in rows if row is not None)


def compared(text, counts):
    """What is said of the counts above their numbers, and of those far below. Of two numbers, the lower one counts."""
    rows = [row[:2] for row in map(fields, text.splitlines()) if row]
    limits = collections.defaultdict(int, ((name, limit) for limit, name in sorted(rows, reverse=True)))
    above = [f"{name}: {counts[name][0]} are more than the {limits[name]} allowed"
             for name in list(counts) if counts[name][0] > limits[name]]
    below = [f"{name}: {counts[name][0]} are far fewer than the {limit} allowed; --write lowers the number"
             for limit, name in rows if is_far(limit, *counts[name])]
    return above, below


def main():
    options = argparse.ArgumentParser(description=__doc__.splitlines()[0])
    options.add_argument("--write", action="store_true", help="write today's counts, and lower numbers, but raise none")
    text, counts = read("budgets.txt"), counted()
    if options.parse_args().write:
        text = renewed(text, counts)
        with open(os.path.join(TOP, "budgets.txt"), "w", encoding="utf-8") as file:
            file.write(text)
    above, below = compared(text, counts)
    for line in above + below:
        print(line)
    print(f"budgets: {len(counts)} counts, {len(above)} above their numbers")
    sys.exit(1 if above else 0)


if __name__ == "__main__":
    main()
