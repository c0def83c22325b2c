#!/usr/bin/env python3
"""Shows how strictly recordings of this kernel can be judged with a yes, by settings, size and loss. Run as root.

    sudo python3 tools/recorded_figures.py --lab PATH --runs 6

Each run is a transfer between two network namespaces, recorded by importer/tcpwit-record and judged by `tcpwit_lab
judge`. It counts for the strictest level with a yes, or for "no" if no level has one; standard error then shows what
was refused.
"""
import argparse
import collections
import itertools
import os
import subprocess
import sys
import tempfile

RECORD = os.path.join(os.path.dirname(os.path.dirname(os.path.realpath(__file__))), "importer", "tcpwit-record")
LEVELS = ("full", "recovery", "none")


def strictest(options, kernel, size, loss, seed):
    """The strictest level with a yes, or "no"."""
    with tempfile.TemporaryDirectory() as folder:
        words = [RECORD, "--lab", options.lab, "--out", folder, "--kernel", kernel, "--congestion", "none",
                 "--from", "full", "--transfer", str(size), "--loss", str(loss), "--seed", str(seed), "--chunk",
                 str(options.chunk)]
        done = subprocess.run(words, capture_output=True, text=True, check=False)
    if done.returncode not in (0, 1):
        print(done.stderr, file=sys.stderr)
        return "error"
    rows = [line.split() for line in done.stdout.splitlines()]
    found = next((row[0] for row in rows if row[0] in LEVELS and row[1] == "yes"), "no")
    if found == "no":
        print(done.stdout, file=sys.stderr)
    return found


def main():
    words = argparse.ArgumentParser(description=__doc__.splitlines()[0])
    words.add_argument("--lab", metavar="PATH", required=True, help="the program tcpwit_lab")
    words.add_argument("--runs", metavar="N", type=int, default=6, help="runs of each kind (default: 6)")
    words.add_argument("--kernels", nargs="+", choices=("plain", "shipped"), default=["plain", "shipped"],
                       help="the kernel settings (default: both)")
    words.add_argument("--sizes", metavar="BYTES", type=int, nargs="+", default=[20_000, 200_000, 2_000_000],
                       help="the sizes of the transfers (default: 20000 200000 2000000)")
    words.add_argument("--losses", metavar="SHARE", type=float, nargs="+", default=[0, 0.02],
                       help="the shares of lost segments (default: 0 0.02)")
    words.add_argument("--chunk", metavar="BYTES", type=int, default=60_000,
                       help="the most bytes of one call of send (default: 60000)")
    options = words.parse_args()
    outcomes = (*LEVELS, "no", "error")
    print("| kernel | bytes | segments lost | " + " | ".join(outcomes) + " |\n|" + "---|" * (3 + len(outcomes)))
    for kernel, size, loss in itertools.product(options.kernels, options.sizes, options.losses):
        found = collections.Counter(strictest(options, kernel, size, loss, seed) for seed in range(1, options.runs + 1))
        print(f"| {kernel} | {size:,} | {loss:.0%} | " + " | ".join(str(found[outcome] or "") for outcome in outcomes)
              + " |", flush=True)


if __name__ == "__main__":
    main()
