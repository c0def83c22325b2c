#!/usr/bin/env python3
"""Runs the built program while its reads and writes fail, and checks that each answer is a permitted one.

    sweep.py PROGRAM CASES [--jobs N]

PROGRAM is the built `tcpwit`, CASES the folder of the case files with its `expected.txt`. The script builds `fail.c`,
next to it, with `cc`, and loads it with LD_PRELOAD. Each command runs with unlimited reads and writes, and with pieces
of 7 bytes or 1, which need many of them. Then the Nth read, and the Nth write, fails, is interrupted, moves one byte or
moves none. This is done for every N up to the last, for the Nth alone and together with all later ones.

A failed read must result in `bad device` and status 5; in `many`, answers to the first cases may come before. A write
that fails or moves nothing must result in status 5, with the output before it and no write after it. A read that moves
nothing is the end of its text, so the answer must be that for the text so far. After an interruption, the answer must
be the right one or that for a failure; after one byte, it must be the right one. `devices` tries failing inputs and
outputs of the system, without the library. Anything else, a signal, or output on standard error is wrong and is
printed. The last line has the counts; the exit status is 1 if any run was wrong.

`check` of one text may read no further than the first fault of the trace. So a later read that would fail isn't met.
"""
import contextlib
import os
import subprocess
import sys
import tempfile

HERE = os.path.dirname(os.path.abspath(__file__))
sys.path.insert(0, os.path.dirname(HERE))

import sweeps
from devices import tried_devices

BAD_DEVICE = (b"bad device\n", 5)
WAYS = ("error", "interrupted", "short", "nothing")


class Run:
    """One run: what it wrote, its status, and what the library counted."""

    def __init__(self, program, library, command, environment):
        words, text = command
        with tempfile.NamedTemporaryFile() as counts:
            surroundings = {"PATH": os.environ.get("PATH", ""), "LD_PRELOAD": library, "FAIL_COUNT": counts.name,
                            **environment}
            try:
                done = subprocess.run([program, *words], input=text, capture_output=True, env=surroundings, timeout=60)
            except subprocess.TimeoutExpired:
                self.answer = self.error = None
                return
            self.answer, self.error = (done.stdout, done.returncode), done.stderr
            found = [int(number) for number in counts.read().split()]
        found = found or [0, 0, 0, -1, 0, 0, 0]
        self.reads, self.writes, self.writes_behind, self.file, self.read_before, *self.read_of = found


def cut_answer(program, library, command, run, is_from):
    """The answer without failures if each file of which a read moved nothing ends after the bytes read so far."""
    words, text = command
    if "--trace" not in words:
        return Run(program, library, (words, text[: run.read_before]), {}).answer
    # the trace was opened first, so its descriptor is the lower one, 3
    ends = dict(zip((3, 4), run.read_of)) if is_from else {run.file: run.read_before}
    words = list(words)
    with contextlib.ExitStack() as files:
        for file, end in ends.items():
            place = words.index("--trace" if file == 3 else "--witness") + 1
            cut = files.enter_context(tempfile.NamedTemporaryFile())
            with open(words[place], "rb") as whole:
                cut.write(whole.read()[:end])
            cut.flush()
            words[place] = cut.name
        return Run(program, library, (words, text), {}).answer


def starts(output):
    """The output, cut after each count of lines."""
    lines = output.splitlines(keepends=True)
    return [b"".join(lines[:count]) for count in range(len(lines) + 1)]


def cut_lines(output, piece, writes):
    """The output of so many writes, each of at most so many bytes of one line."""
    pieces = [line[at : at + piece] for line in output.splitlines(keepends=True) for at in range(0, len(line), piece)]
    return b"".join(pieces[:writes])


def is_right(program, library, command, plain, environment):
    """Whether the run of a command may end like this; `plain` is the run in which nothing fails."""
    run = Run(program, library, command, environment)
    how = environment["FAIL_HOW"]
    if run.answer is None or run.error or run.writes_behind:
        return False, run
    allowed = [plain.answer] if how in ("short", "interrupted") else []
    if "FAIL_READ" in environment:
        if run.file == -1:
            allowed = [plain.answer]
        elif how == "nothing":
            allowed = [cut_answer(program, library, command, run, "FAIL_FROM" in environment)]
        elif how != "short":
            allowed += [(start + BAD_DEVICE[0], BAD_DEVICE[1])
                        for start in (starts(plain.answer[0]) if "many" in command[0] else [b""])]
    elif int(environment["FAIL_WRITE"]) > plain.writes:
        allowed = [plain.answer]
    elif how != "short":
        whole = int(environment["FAIL_PIECE"] or len(plain.answer[0]))
        writes = int(environment["FAIL_WRITE"]) - 1
        cut = cut_lines(plain.answer[0], whole, writes) if "many" in command[0] else plain.answer[0][: whole * writes]
        allowed.append((cut, 5))
    return run.answer in allowed, run


def most_reads(command, line, piece):
    """How many reads of pieces of so many bytes `check` may need for its standard input: up to the end of the line that
    has a fault."""
    words, text = command
    rows, answer = text.splitlines(keepends=True), line.split()
    is_cut = answer[:2] == ["bad", "trace"] and int(answer[2]) <= len(rows)
    needed = len(b"".join(rows[: int(answer[2])])) if is_cut else len(text) + int(piece)
    return -(-needed // int(piece))


def failures(plain, piece):
    """The failures to try, as environments."""
    for place, count in (("FAIL_READ", plain.reads), ("FAIL_WRITE", plain.writes)):
        for n in range(1, count + 2):
            for how in WAYS:
                yield {place: str(n), "FAIL_HOW": how, "FAIL_PIECE": piece}
                if how != "interrupted":
                    yield {place: str(n), "FAIL_HOW": how, "FAIL_PIECE": piece, "FAIL_FROM": "1"}


def sweep_command(sweep, name, command, line):
    """Runs one command, whose expected answer is `line`, with each failure."""
    for piece in ("", "7", "1"):
        plain = Run(sweep.program, sweep.library, command, {"FAIL_PIECE": piece})
        if plain.answer is None or plain.error or plain.answer[0].decode() != line + "\n":
            sweep.add(1, [f"{name}: without failures {plain.answer} {plain.error}"])
            return
        if piece and command[0] == ["check"] and plain.reads > most_reads(command, line, piece):
            sweep.add(0, [f"{name}: {plain.reads} reads of {piece} bytes, which are more than it needs"])
        if piece == "1" and plain.reads > 200:
            continue
        asked = list(failures(plain, piece))
        found = sweep.pool.map(lambda each: is_right(sweep.program, sweep.library, command, plain, each), asked)
        failed = [f"{name} {environment}: {run.answer} {run.error} {run.__dict__}"
                  for environment, (is_fine, run) in zip(asked, found) if not is_fine]
        print(f"{name}: pieces of {piece or 'any'} bytes, {plain.reads} reads, {plain.writes} writes, {len(asked)} "
              f"runs, {len(failed)} wrong", flush=True)
        sweep.add(len(asked) + 1, failed)


def built_library(folder):
    """The library that makes reads and writes fail, built in this folder."""
    return sweeps.built_library(os.path.join(HERE, "fail.c"), folder)


def main():
    words = sweeps.parser(__doc__).parse_args()
    with sweeps.started(words, built_library) as (sweep, commands):
        for name, (command, line) in commands.items():
            # Recordings differ from run to run, so `record` is only tried with devices of the system that fail.
            if line is not None:
                sweep_command(sweep, name, command, line)
        sweep.add(*tried_devices(sweep.program, words.cases, sweep.folder))


if __name__ == "__main__":
    main()
