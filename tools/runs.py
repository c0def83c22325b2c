#!/usr/bin/env python3
"""Runs the programs in tests/. `./test runs` calls this.

    tools/runs.py [WORD]

The programs are built without proofs, as one, and kept in .built/. `test_cases` checks the case files, `bench_jobs`
does each of its jobs on a few cases, and `test_runs` runs its tests, one after the other. A program must print what its
file `stdout` has, and a test nothing. With WORD, only the runs whose names contain it are done. The last line has the
counts; the status is 1 if a run failed.
"""
import subprocess
import sys
import time
import typing

from unproved import TOP, kept, tests

# How many seconds a run may take, on a busy machine too.
LIMIT = 300


class Run(typing.NamedTuple):
    """A run of a program: its name, what is run, in which folder, and what it must print."""
    name: str
    words: list
    folder: str = TOP
    wanted: str = ""


def text_of(path):
    """The text of a file in tests/."""
    with open(f"{TOP}/tests/{path}", encoding="utf-8") as file:
        return file.read()


def runs():
    """All runs."""
    yield Run("test_cases", ["test_cases"], f"{TOP}/crates/test_cases/data", text_of("test_cases/stdout"))
    jobs = ["bench_jobs", *text_of("bench_jobs/args").split()]
    yield Run("bench_jobs", jobs, wanted=text_of("bench_jobs/stdout"))
    for test in tests():
        yield Run(test, ["test_runs", test])


def fault_of(run):
    """What is wrong with a run, or None."""
    program, *words = run.words
    try:
        done = subprocess.run([kept(program), *words], cwd=run.folder, stdin=subprocess.DEVNULL,
                              stdout=subprocess.PIPE, stderr=subprocess.PIPE, text=True, timeout=LIMIT)
    except subprocess.TimeoutExpired:
        return f"it takes more than {LIMIT} seconds"
    if done.returncode == 0 and done.stdout == run.wanted:
        return None
    return f"status {done.returncode}, and it printed\n{done.stdout}{done.stderr}".rstrip()


def main():
    if sys.argv[1:2] == ["--help"]:
        print(__doc__.strip())
        return 0
    if len(sys.argv) > 2:
        sys.exit(__doc__)
    chosen = [run for run in runs() if "".join(sys.argv[1:]) in run.name]
    failed = 0
    for run in chosen:
        begun = time.monotonic()
        fault = fault_of(run)
        failed += fault is not None
        said = f"FAILED: {fault}" if fault else f"passed, in {time.monotonic() - begun:.1f} seconds"
        print(f"{run.name}: {said}", flush=True)
    print(f"{len(chosen) - failed} runs passed, {failed} failed")
    return 1 if failed or not chosen else 0


if __name__ == "__main__":
    sys.exit(main())
