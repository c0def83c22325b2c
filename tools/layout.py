#!/usr/bin/env python3
"""Lists the files that `rt fmt` would change. `rt ci` refuses the crate of such a file, and `rt check` doesn't.

    tools/layout.py            lists these files; the status is 1 if there are any
    tools/layout.py --write    formats the programs in tests/, where `rt fmt` can't be used

It needs `rt` in PATH.
"""
import argparse
import glob
import os
import shutil
import subprocess
import sys
import tempfile

TOP = os.path.dirname(os.path.dirname(os.path.abspath(__file__)))
PATTERNS = [f"{folder}/**/*.{kind}" for folder in ("src", "specs", "proofs") for kind in ("rt", "antt")]


def files_of(crate):
    """The files of a crate that have a layout."""
    return sorted(path for pattern in PATTERNS for path in glob.glob(f"{crate}/{pattern}", recursive=True))


def complaint(rattle, files, folder=TOP):
    """What the formatter says of these files of a folder, or None if it would change none."""
    done = subprocess.run([rattle, "fmt", "--check", *files], cwd=folder, stdout=subprocess.PIPE,
                          stderr=subprocess.STDOUT, text=True)
    return done.stdout.strip() if done.returncode else None


def of_tests(rattle, write):
    """What the formatter says of the programs in tests/, or None if it would change no file. It reads only .rt files,
    so it gets copies. If the files are to be formatted, their copies replace them."""
    names = [path.removesuffix(".txt") for path in sorted(glob.glob("tests/**/*.rt.txt", recursive=True))]
    with tempfile.TemporaryDirectory() as folder:
        for name in names:
            os.makedirs(os.path.dirname(f"{folder}/{name}"), exist_ok=True)
            shutil.copy(f"{name}.txt", f"{folder}/{name}")
        if not write:
            return complaint(rattle, names, folder)
        subprocess.run([rattle, "fmt", "--write", *names], cwd=folder, check=True)
        for name in names:
            shutil.copy(f"{folder}/{name}", f"{name}.txt")
    return None


def main():
    words = argparse.ArgumentParser(description=__doc__.splitlines()[0])
    words.add_argument("--write", action="store_true", help="format the programs in tests/")
    words = words.parse_args()
    rt = shutil.which("rt")
    if rt is None:
        print("layout: there is no rt in PATH", file=sys.stderr)
        return 1
    os.chdir(TOP)
    rattle = os.path.join(os.path.dirname(os.path.realpath(rt)), "rattle")
    crates = [os.path.dirname(folder) for folder in sorted(glob.glob("crates/*/src"))]
    complaints = {"tests": of_tests(rattle, words.write)}
    complaints |= {crate: complaint(rattle, files_of(crate)) for crate in crates}
    wrong = [folder for folder, said in complaints.items() if said is not None]
    for folder in wrong:
        remedy = "`tools/layout.py --write`" if folder == "tests" else "`rt fmt` there"
        print(f"{folder}: run {remedy}", complaints[folder], sep="\n")
    print(f"layout: {len(wrong)} of {len(complaints)} folders to be formatted")
    return 1 if wrong else 0


if __name__ == "__main__":
    sys.exit(main())
