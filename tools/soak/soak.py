#!/usr/bin/env python3
"""Records with many settings, checks each case, and counts what happened in them.

    soak.py PROGRAM [--minutes M] [--seed S]

Each run has a random number of rounds (1 to 1000), K (0 or 2 to 50) and version. It fails if `record` ends with a
status other than 0 or 1, or with one that doesn't match the trace, or if `check` doesn't answer yes to its output.
"""
import argparse
import os
import random
import subprocess
import sys
import time
from collections import Counter

sys.path.insert(0, os.path.join(os.path.dirname(os.path.realpath(__file__)), "..", "..", "importer"))
from tcpwit_importer.capture import segments  # noqa: E402


def segment_of(words):
    """Host, ports, sequence number, flags, window and payload length of an O line."""
    data = bytes.fromhex(words[4])
    window, length = segments.window(data), segments.size(data)
    return int(words[3]), *segments.ports(data), segments.number(data), segments.flags(data), window, length


def features_of(text):
    """The events in a case."""
    found = Counter()
    trace, _, witness = text.partition("\nwitness ")
    made = set()
    ended = set()
    heard = set()
    windows = {0: None, 1: None}
    for line in trace.split("\n"):
        words = line.split(" ")
        if len(words) < 3:
            continue
        if words[2] == "O":
            host, source, target, number, flags, window, length = segment_of(words)
            taken = length + (flags & 1) + (flags >> 1 & 1)
            if taken > 0:
                if (host, source, target, number) in made:
                    found["retransmissions"] += 1
                made.add((host, source, target, number))
            if window == 0 and flags & 16:
                found["windows of 0"] += 1
                windows[host] = 0
            elif flags & 16:
                windows[host] = window
            if length == 1 and windows[1 - host] == 0:
                found["probes of a window of 0"] += 1
            if flags & 1 and host not in heard:
                ended.add(host)
            if flags & 4:
                found["resets"] += 1
        elif words[2] == "I":
            host, _, _, _, flags, _, _ = segment_of(words)
            if flags & 1:
                heard.add(host)
        elif words[2] == "T":
            found[f"{words[-1]} lines"] += 1
    if len(ended) == 2:
        found["simultaneous closes"] += 1
    for line in witness.split("\n"):
        words = line.split(" ")
        if len(words) > 1 and words[1] == "F":
            found["fast recoveries"] += 1
    return found


def has_ended(text, rounds):
    """Whether the trace shows that host 1 received the bytes of all rounds and both hosts closed. If so, the status
    must be 0."""
    bytes_told, oks = 0, Counter()
    for line in text.partition("\nwitness ")[0].split("\n"):
        words = line.split(" ")
        if words[2:4] == ["E", "data"] and words[1] == "3":
            bytes_told += len(words[4]) // 2
        elif words[2:] == ["E", "ok"]:
            oks[words[1]] += 1
    return bytes_told == 64 * rounds and oks["2"] == 3 and oks["3"] == 1


def run(words, data=None):
    return subprocess.run(words, input=data, stdout=subprocess.PIPE, stderr=subprocess.PIPE, check=False)


def main():
    parser = argparse.ArgumentParser(description=__doc__.splitlines()[0])
    parser.add_argument("program", metavar="PROGRAM", help="the program tcpwit")
    parser.add_argument("--minutes", metavar="M", type=float, default=1, help="how many minutes to run (default: 1)")
    parser.add_argument("--seed", metavar="S", type=int, default=1, help="the seed of the settings (default: 1)")
    given = parser.parse_args()
    chance = random.Random(given.seed)
    end = time.time() + 60 * given.minutes
    counts = Counter()
    while time.time() < end:
        rounds = chance.randint(1, 1000)
        lose = chance.choice([0] + list(range(2, 51)))
        version = chance.choice([1, 2])
        words = ["record", "--rounds", str(rounds), "--lose", str(lose), "--format", str(version)]
        recorded = run([given.program] + words)
        if recorded.returncode not in (0, 1) or recorded.stderr:
            print("failed:", *words, "status", recorded.returncode, recorded.stdout[:80])
            return 1
        answer = run([given.program, "check"], recorded.stdout)
        if answer.returncode != 0 or not answer.stdout.startswith(b"yes "):
            print("not yes:", *words, answer.stdout.decode().strip())
            with open("not_yes.case", "wb") as case:
                case.write(recorded.stdout)
            return 1
        text = recorded.stdout.decode()
        if has_ended(text, rounds) != (recorded.returncode == 0):
            print("another status:", *words, "status", recorded.returncode)
            return 1
        counts["runs"] += 1
        counts[f"runs of version {version}"] += 1
        counts["runs that met a limit"] += recorded.returncode
        counts["event lines"] += int(answer.stdout.split()[1])
        counts.update(features_of(text))
    for name in sorted(counts):
        print(f"{counts[name]:>10}  {name}")
    return 0


if __name__ == "__main__":
    sys.exit(main())
