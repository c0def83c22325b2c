#!/usr/bin/env python3
"""Mutates traces, and tests `find` and `remark` on them.

    traces.py PROGRAM LAB CASES .. [--changes N] [--seed S] [--budget N] [--jobs N]

PROGRAM is the built `tcpwit`, LAB the built `tcpwit_lab`, and each CASES a folder with cases and traces. A mutation
deletes, doubles, swaps or cuts off lines, or changes a digit of a segment, a moment or an answer, one to three times.
`find` must end with status 0 or 2. `check` must answer yes exactly if `find` doesn't name an unexplained line, and
`remark` must end with status 0 or 1. Other traces are printed with the seed of the mutation, and saved in `differing/`.
The last line has the counts; the exit status is 1 if anything was wrong.
"""
import argparse
import concurrent.futures
import os
import random
import subprocess
import sys

# Longer texts would take most of the time.
LONGEST = 60_000
ANSWERS = ["ok", "ok 3", "again", "closed", "data 61", "eof", "notconn", "refused", "reset", "timeout",
           "state ESTABLISHED"]
SHIFTS = [-1_000_000, -1000, -1, 1, 1000, 1_000_000]
# The digits of sequence number, acknowledgment number, flags and window in the hex of a segment.
FIELDS = [*range(8, 24), *range(26, 32)]
MUTATIONS = 3


def trace_of(text):
    """The trace in a case or a trace, as lines."""
    lines = text.split("\n")[:-1]
    return next((lines[:at] for at, line in enumerate(lines) if line.startswith("witness ")), lines)


def traces(folders):
    found = []
    for path in sorted(os.path.join(root, name) for folder in folders for root, _, names in os.walk(folder)
                       for name in names):
        if path.endswith((".case", ".trace")) and os.path.getsize(path) < LONGEST:
            with open(path, encoding="utf-8", errors="replace", newline="\n") as file:
                found.append(trace_of(file.read()))
    return [lines for lines in found if lines and first_event(lines) < len(lines)]


def first_event(lines):
    return next((at for at, line in enumerate(lines) if line[:1].isdigit()), len(lines))


def changed_line(line, random_):
    words = line.split(" ")
    if len(words) > 3 and words[2] == "E":
        words[3:] = [random_.choice(ANSWERS)]
    elif random_.random() < 0.5 and len(words) > 4 and len(words[4]) >= 40:
        at = random_.choice(FIELDS)
        words[4] = words[4][:at] + random_.choice("0123456789abcdef") + words[4][at + 1:]
    elif words[0].isdigit():
        words[0] = str(max(0, int(words[0]) + random_.choice(SHIFTS)))
    return " ".join(words)


def mutated(lines, random_):
    """Another trace with the same header."""
    first = first_event(lines)
    events = lines[first:]
    for _ in range(random_.randint(1, MUTATIONS)):
        if not events:
            break
        at, other = random_.randrange(len(events)), random_.randrange(len(events))
        kind = random_.randrange(6)
        if kind == 0:
            del events[at]
        elif kind == 1:
            events.insert(other, events[at])
        elif kind == 2:
            events[at], events[other] = events[other], events[at]
        elif kind == 3:
            del events[max(at, 1):]
        else:
            events[at] = changed_line(events[at], random_)
    return lines[:first] + (in_order(events) if random_.random() < 0.8 else events)


def in_order(events):
    """The same lines, none with a smaller moment than the line before."""
    last, found = 0, []
    for line in events:
        moment, _, rest = line.partition(" ")
        if moment.isdigit():
            last = max(last, int(moment))
            line = f"{last} {rest}"
        found.append(line)
    return found


def run(words, text):
    return subprocess.run(words, input=text, capture_output=True, text=True, errors="replace", timeout=600)


def tested(words, seed, known):
    """Tests one mutation. Returns the trace, its verdict, and what is wrong, if anything is."""
    random_ = random.Random(seed)
    text = "\n".join(mutated(random_.choice(known), random_)) + "\n"
    found = run([words.lab, "find", "--budget", str(words.budget)], text)
    if found.returncode == 2:
        return text, "bad trace", ""
    if found.returncode != 0:
        return text, "", f"find ended with status {found.returncode}: {found.stderr}"
    verdict = run([words.program, "check"], found.stdout).stdout.strip()
    is_explained = "explain" not in found.stderr or found.stderr.startswith("every line")
    if not verdict.startswith("yes" if is_explained else "no "):
        return text, verdict, f"check answers {verdict!r}, but find: {found.stderr!r}"
    remarks = run([words.lab, "remark"], found.stdout)
    if remarks.returncode not in (0, 1):
        return text, verdict, f"remark ended with status {remarks.returncode}: {remarks.stderr}"
    return text, verdict, ""


def main():
    words = argparse.ArgumentParser(description=__doc__.splitlines()[0])
    words.add_argument("program", metavar="PROGRAM", help="the program tcpwit")
    words.add_argument("lab", metavar="LAB", help="the program tcpwit_lab")
    words.add_argument("cases", metavar="CASES", nargs="+",
                       help="folders with cases and traces, such as crates/test_cases/data")
    words.add_argument("--changes", metavar="N", type=int, default=100_000,
                       help="how many mutations are tried (default: 100,000)")
    words.add_argument("--seed", metavar="SEED", type=int, default=1,
                       help="the seed of the first mutation (default: 1)")
    words.add_argument("--budget", metavar="N", type=int, default=20_000, help="the budget of find (default: 20,000)")
    words.add_argument("--jobs", metavar="N", type=int, default=os.cpu_count(),
                       help="how many runs at once (default: one for each processor)")
    words = words.parse_args()
    words.program, words.lab = os.path.abspath(words.program), os.path.abspath(words.lab)
    known = traces(words.cases)
    verdicts, wrong = {"yes": 0, "no": 0, "bad": 0}, 0
    seeds = range(words.seed, words.seed + words.changes)
    with concurrent.futures.ThreadPoolExecutor(words.jobs) as pool:
        for seed, (text, verdict, fault) in zip(seeds, pool.map(lambda seed: tested(words, seed, known), seeds)):
            if fault:
                wrong += 1
                os.makedirs("differing", exist_ok=True)
                with open(f"differing/{seed}.trace", "w", encoding="utf-8", newline="\n") as file:
                    file.write(text)
                print(seed, fault, flush=True)
            else:
                verdicts[verdict.split(" ")[0]] += 1
    print(f"{len(seeds)} changes, {verdicts['yes']} yes, {verdicts['no']} no, {verdicts['bad']} bad traces, "
          f"{wrong} wrong")
    sys.exit(1 if wrong else 0)


if __name__ == "__main__":
    main()
