#!/usr/bin/env python3
"""Shows which functions took longest in a check from scratch.

    python3 tools/function_times.py FOLDER [N]

FOLDER is where the check saves its work: `out/` of a crate that was proved from scratch, with one job. A check writes a
file for each module that it has proved, so the time between two files is that of the second. The script prints the N
slowest functions (default: 20), each with its elapsed seconds. A name without a function belongs to code that all
functions share.
"""
import collections
import os
import sys

# Modules that belong to a function, after its name.
PARTS = ("Lts", "Tie", "Proof", "Layout", "Kinds", "Code", "Named", "Met", "Reads", "Statement", "Given", "Contract",
         "Mir", "decls", "TheReach", "TheLaws")


def function_of(module):
    """The function or file that a module belongs to."""
    words = module.split(".")
    while len(words) > 2 and words[-1] in PARTS:
        words.pop()
    return ".".join(words)


def main():
    if "--help" in sys.argv:
        print(__doc__.strip())
        return
    found = []
    for folder, _, files in os.walk(sys.argv[1]):
        for name in files:
            if name.endswith(".oantt"):
                found.append((os.stat(os.path.join(folder, name)).st_mtime,
                              name.removesuffix(".oantt").removeprefix("Rattle-")))
    found.sort()
    seconds = collections.Counter()
    for (before, _), (moment, module) in zip(found, found[1:]):
        seconds[function_of(module)] += moment - before
    for name, time in seconds.most_common(int(sys.argv[2]) if len(sys.argv) > 2 else 20):
        print(f"{time:8.1f}  {name}")


if __name__ == "__main__":
    main()
