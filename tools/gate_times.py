#!/usr/bin/env python3
"""Runs a command (default: rt ci) and prints its cost by crate: processor seconds for the proofs, the tests and the
edits (mutants).

    python3 tools/gate_times.py [--out FILE] [COMMAND ..]

Four times a second, it reads the time that each process below the command has used. The process's --crate-name shows
its crate. A process that works on a copy in a folder rt-edit.. (an edit of must-fail) or edits-.. (tools/edits.py)
belongs to the edits; one with --test belongs to the tests. The last quarter of a second of each process is missed.
"""

import os
import subprocess
import sys
import time

TICK = os.sysconf("SC_CLK_TCK")


def processes():
    """The parent, the used seconds and the place of each process."""
    found = {}
    for name in os.listdir("/proc"):
        if not name.isdigit():
            continue
        try:
            with open(f"/proc/{name}/stat", "rb") as it:
                fields = it.read().rsplit(b")", 1)[1].split()
            found[int(name)] = (int(fields[1]), int(fields[19]), (int(fields[11]) + int(fields[12])) / TICK)
        except OSError:
            pass
    return found


def below(root, found):
    """The processes that descend from one."""
    children = {}
    for pid, (parent, _, _) in found.items():
        children.setdefault(parent, []).append(pid)
    ours, at = [root], 0
    while at < len(ours):
        ours += children.get(ours[at], [])
        at += 1
    return ours


def described(pid):
    """The crate that a process works on and for what, or None if that's unknown."""
    try:
        with open(f"/proc/{pid}/cmdline", "rb") as it:
            words = it.read().decode(errors="replace").split("\0")
        folder = os.readlink(f"/proc/{pid}/cwd")
    except OSError:
        return None
    if "--crate-name" not in words:
        return None
    crate = words[words.index("--crate-name") + 1]
    if "/rt-edit" in folder or "/edits-" in folder:
        return crate, "edits"
    return crate, "tests" if "--test" in words else "proof"


def main():
    words = sys.argv[1:]
    if words == ["--help"]:
        print(__doc__.strip())
        return 0
    out = sys.stdout
    if words[:1] == ["--out"]:
        out = open(words[1], "w")
        words = words[2:]
    started = time.time()
    command = subprocess.Popen(words or ["rt", "ci"])
    used, names = {}, {}
    while command.poll() is None:
        found = processes()
        for pid in below(command.pid, found):
            key = (pid, found[pid][1])
            used[key] = found[pid][2]
            if names.get(key) is None:
                names[key] = described(pid)
        time.sleep(0.25)
    lasted = time.time() - started
    sums = {}
    for key, seconds in used.items():
        crate, kind = names[key] or ("other", "proof")
        row = sums.setdefault(crate, {"proof": 0.0, "tests": 0.0, "edits": 0.0})
        row[kind] += seconds
    print(f"{lasted:.0f} s of the clock, {sum(used.values()) / 60:.1f} processor minutes", file=out)
    print("| crate | proof | tests | edits |", file=out)
    print("|---|---|---|---|", file=out)
    for crate, row in sorted(sums.items(), key=lambda it: -sum(it[1].values())):
        print(f"| `{crate}` | {row['proof']:.0f} | {row['tests']:.0f} | {row['edits']:.0f} |", file=out)
    return command.returncode


if __name__ == "__main__":
    sys.exit(main())
