#!/usr/bin/python3
"""Reads many damaged captures: each must give packets, or an error with a remedy.

    captures.py [--count N] [--seed S]

A capture of each kind of the importer's tests is changed at random: bytes, lengths, its end, parts or records that it
has twice or not at all. The script stops at the first capture that the importer doesn't read or refuse, and keeps it.
"""
import argparse
import os
import resource
import shutil
import sys
import tempfile

sys.path.insert(0, os.path.join(os.path.dirname(os.path.realpath(__file__)), "..", "..", "importer"))
from tests import damage, samples  # noqa: E402


def main():
    """Runs it and returns the exit status."""
    parser = argparse.ArgumentParser(description=__doc__.splitlines()[0])
    parser.add_argument("--count", metavar="N", type=int, default=10_000,
                        help="how many captures to read (default: 10000)")
    parser.add_argument("--seed", metavar="S", type=int, default=1, help="the seed of the changes (default: 1)")
    given = parser.parse_args()
    captures = [data for _, data in [*samples.every(), ("together", samples.together())]]
    with tempfile.TemporaryDirectory() as folder:
        name = os.path.join(folder, "damaged.pcap")
        try:
            read, refused = damage.run(captures, given.seed, given.count, name)
        except AssertionError as error:
            shutil.copy(name, "damaged.pcap")
            print(f"{error}\nThe capture is kept as damaged.pcap.")
            return 1
    print(f"{read:>10}  captures read\n{refused:>10}  captures refused\n"
          f"{resource.getrusage(resource.RUSAGE_SELF).ru_maxrss // 1024:>10}  MB of memory at most")
    return 0


if __name__ == "__main__":
    sys.exit(main())
