#!/usr/bin/env python3
"""Mutates case files and compares the answers of several ways of checking.

    fuzz.py PROGRAM CASES [--changes N] [--seed S] [--other CHECKER] [--jobs N]

PROGRAM is the built `tcpwit`, CASES the folder of the case files. Each mutation changes bytes, fields, lines or numbers
(near limits) of a case, one to four times. The mutated cases are checked by `many` in batches, by `check`, and, if they
can be split into two files, by `check --trace --witness`; with --other also by a second checker, which reads a case
from standard input and prints the same line. All answers must be equal. Differences are printed with the seed of the
mutation, and the case is saved in `differing/`. The last line has the counts; the exit status is 1 if anything
differed.
"""
import argparse
import concurrent.futures
import os
import random
import subprocess
import sys
import tempfile

LIMITS = [0, 1, 2, 7, 14, 15, 536, 1095, 1096, 2190, 2191, 65515, 65516, 65535, 65536, 2**31 - 1, 2**31, 2**32 - 1,
          2**32, 10**12, 10**12 + 1, 10**18, 10**18 + 1, 2**63, 2**64 - 1, 2**64]
# Replaces an answer if a signal ended the program.
ENDED = b"ended by signal"


def changed_number(text, random_):
    """A number near the old one, or near a limit."""
    if not text.isdigit():
        return text
    value = random_.choice([int(text[:20]) + random_.choice([-2, -1, 1, 2, 10, 1000]), random_.choice(LIMITS)])
    return (b"-%d" % -value) if value < 0 else b"%d" % value


def rearrange(items, place, kind, random_):
    """Deletes an item (kind 0), adds a copy of one (1), or swaps two."""
    if kind == 0:
        del items[place]
    elif kind == 1:
        items.insert(place, random_.choice(items))
    else:
        other = random_.randrange(len(items))
        items[place], items[other] = items[other], items[place]


def changed_field(line, random_):
    fields = line.split(b" ")
    place = random_.randrange(len(fields))
    kind = random_.randrange(6)
    if kind <= 2:
        fields[place] = changed_number(fields[place], random_)
    else:
        rearrange(fields, place, kind - 3, random_)
    return b" ".join(fields)


def changed_bytes(text, random_):
    place = random_.randrange(len(text) + 1)
    kind = random_.randrange(4)
    byte = bytes([random_.choice(b"0123456789 \n\rabcdefABILEOTDMKRFS\x00\xff")])
    if kind == 0:
        return text[:place] + byte + text[place:]
    if kind == 1:
        return text[:place] + text[place + 1:]
    if kind == 2:
        return text[:place] + byte + text[place + 1:]
    return text[:place]


def changed_lines(lines, random_):
    place = random_.randrange(len(lines))
    kind = random_.randrange(8)
    if kind <= 4:
        lines[place] = changed_field(lines[place], random_)
    else:
        rearrange(lines, place, kind - 5, random_)
    return lines


def changed(text, random_):
    for _ in range(random_.randint(1, 4)):
        if random_.random() < 0.15 or not text:
            text = changed_bytes(text, random_)
        else:
            text = b"\n".join(changed_lines(text.split(b"\n"), random_))
    return text


def answer(words, text):
    done = subprocess.run(words, input=text, capture_output=True, timeout=60)
    ended = b"%s %d\n" % (ENDED, -done.returncode) if done.returncode < 0 else b""
    return done.stdout + done.stderr + ended


def cut(text):
    """The trace and the witness of a case, split where a line begins the witness."""
    lines = text.split(b"\n")
    first = lines[0].removesuffix(b"\r") if len(lines) > 1 else b""
    version = first[6:] if first in (b"trace 2", b"trace 3", b"trace 4", b"trace 5", b"trace 6") else b"1"
    place = 0
    for line in lines[:-1]:
        if line.removesuffix(b"\r") == b"witness " + version:
            return text[:place], text[place:]
        place += len(line) + 1
    return None


def by_files(program, text, folder, name):
    parts = cut(text)
    if parts is None:
        return None
    paths = [os.path.join(folder, name + end) for end in (".trace", ".witness")]
    for path, part in zip(paths, parts):
        with open(path, "wb") as file:
            file.write(part)
    return answer([program, "check", "--trace", paths[0], "--witness", paths[1]], b"")


def compared(words, seed, text, many_line, folder):
    """The answers to one mutated case, if they differ."""
    found = {"many": many_line, "check": answer([words.program, "check"], text)}
    two = by_files(words.program, text, folder, str(seed))
    if two is not None:
        found["two files"] = two
    if words.other:
        found["other"] = answer([words.other], text)
    is_wrong = len(set(found.values())) > 1 or any(ENDED in line for line in found.values())
    return found if is_wrong else None


def batch(words, cases, first, count, folder):
    """Compares `count` mutations with the seeds from `first` on. Returns those that differ, and how many were yes or
    no."""
    texts = []
    for seed in range(first, first + count):
        random_ = random.Random(seed)
        texts.append(changed(random_.choice(cases), random_))
    usable = [not any(line.removesuffix(b"\r") == b"end" for line in text.split(b"\n")) for text in texts]
    joined = b"".join(text + (b"" if text.endswith(b"\n") or not text else b"\n") + b"end\n" for text in texts)
    differing, judged, lines = [], 0, [None] * count
    if all(usable):
        lines = answer([words.program, "many", "--workers", "2"], joined).splitlines(keepends=True)
    if len(lines) != count:
        differing.append((first, joined, {"many": b"%d lines for %d cases" % (len(lines), count)}))
        lines = [None] * count
    for seed, text, line in zip(range(first, first + count), texts, lines):
        # in the joined input, a text whose last line has no end gets one, so `many` answers a different text
        is_same = line is not None and (text.endswith(b"\n") or not text)
        alone = line if is_same else answer([words.program, "check"], text)
        judged += alone[:3] in (b"yes", b"no ")
        found = compared(words, seed, text, alone, folder)
        if found:
            differing.append((seed, text, found))
    return differing, judged


def main():
    words = argparse.ArgumentParser(description=__doc__.splitlines()[0])
    words.add_argument("program", metavar="PROGRAM", help="the program tcpwit")
    words.add_argument("cases", metavar="CASES", help="the folder of the case files, crates/test_cases/data")
    words.add_argument("--changes", metavar="N", type=int, default=100_000,
                       help="how many mutations are tried (default: 100,000)")
    words.add_argument("--seed", metavar="SEED", type=int, default=1,
                       help="the seed of the first mutation (default: 1)")
    words.add_argument("--other", metavar="PROGRAM", help="a second checker; reads a case from standard input")
    words.add_argument("--jobs", metavar="N", type=int, default=os.cpu_count(),
                       help="how many runs at once (default: one for each processor)")
    words = words.parse_args()
    words.program = os.path.abspath(words.program)
    cases = [open(os.path.join(root, file), "rb").read() for root, _, files in os.walk(words.cases)
             for file in sorted(files) if file.endswith(".case")]
    size = 50
    firsts = range(words.seed, words.seed + words.changes, size)
    wrong = judged = 0
    with tempfile.TemporaryDirectory() as folder, concurrent.futures.ThreadPoolExecutor(words.jobs) as pool:
        for differing, counted in pool.map(lambda first: batch(words, cases, first, size, folder), firsts):
            judged += counted
            for seed, text, found in differing:
                wrong += 1
                os.makedirs("differing", exist_ok=True)
                with open(f"differing/{seed}.case", "wb") as file:
                    file.write(text)
                print(seed, found, flush=True)
    print(f"{len(firsts) * size} changes, {judged} of them answered yes or no, {wrong} differing")
    sys.exit(1 if wrong else 0)


if __name__ == "__main__":
    main()
