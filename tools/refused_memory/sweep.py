#!/usr/bin/env python3
"""Runs the built program while memory is refused, and checks that each answer is a permitted one.

    sweep.py PROGRAM CASES [--most N] [--jobs N]

PROGRAM is the built `tcpwit`, CASES the folder of the case files with its `expected.txt`. The script builds `refuse.c`,
next to it, with `cc`, and loads it with LD_PRELOAD. Each command first runs without refusals, to count its allocations.
Then memory is refused for the n-th allocation alone, for the n-th and all later ones, for every 2nd, 3rd and 7th, and
for all of at least 2^k bytes. At most N values of n are tried (default: 4000), evenly spread.

The right answers are the one without refusals, and the line `bad memory` with status 4. With many cases, single lines
may also be `bad memory`, with status 4, and that line may follow the answers to the first cases. `check` must answer
yes to the output of `record`. Anything else (another line, a signal, output on standard error, a run of more than 60
seconds) is wrong and is printed. The last line has the counts; the exit status is 1 if any run was wrong.
"""
import os
import subprocess
import sys

HERE = os.path.dirname(os.path.abspath(__file__))
sys.path.insert(0, os.path.dirname(HERE))

import sweeps

BAD_MEMORY = b"bad memory\n"


def built_library(folder):
    """The library that refuses memory, built in this folder."""
    return sweeps.built_library(os.path.join(HERE, "refuse.c"), folder)


def run(program, library, command, environment):
    """The answer of one run: (output, error output, status), or None if it took too long."""
    words, text = command
    surroundings = {"PATH": os.environ.get("PATH", ""), "LD_PRELOAD": library, **environment}
    try:
        done = subprocess.run([program, *words], input=text, capture_output=True, env=surroundings, timeout=60)
    except subprocess.TimeoutExpired:
        return None
    return done.stdout, done.stderr, done.returncode


def is_right(answer, wanted):
    """Whether an answer is permitted; `wanted` is the answer without refusals."""
    if answer is None:
        return False
    output, error, status = answer
    if error:
        return False
    if (output, status) == wanted or (output, status) == (BAD_MEMORY, 4):
        return True
    found, lines = output.splitlines(), wanted[0].splitlines()
    ends_early = 0 < len(found) <= len(lines) + 1 and found[-1] == BAD_MEMORY.strip()
    return (
        len(lines) > 1
        and (len(found) == len(lines) or ends_early)
        and status == 4
        and all(line in (own, BAD_MEMORY.strip()) for line, own in zip(found, lines))
    )


def is_recorded(program, answer):
    """Whether the recording gets a yes, or memory ran out: recordings differ from run to run."""
    if answer is None or answer[1]:
        return False
    if (answer[0], answer[2]) == (BAD_MEMORY, 4):
        return True
    judged = subprocess.run([program, "check"], input=answer[0], capture_output=True)
    return answer[2] in (0, 1) and judged.stdout.startswith(b"yes ")


def refusals(count, most):
    """The refusals to try, as environments."""
    step = max(1, (count + most) // most)
    for n in range(1, count + 3, step):
        yield {"REFUSE_AT": str(n)}
        yield {"REFUSE_FROM": str(n)}
    for n in (2, 3, 7):
        yield {"REFUSE_EVERY": str(n)}
    for power in range(0, 25):
        yield {"REFUSE_SIZE": str(2**power)}


def sweep_command(sweep, name, command, line, most):
    """Runs one command with each refusal. `line` is its expected answer, if it has a fixed one."""
    def ran(environment):
        return run(sweep.program, sweep.library, command, environment)

    counts = os.path.join(sweep.folder, "count")
    plain = ran({"REFUSE_COUNT": counts})
    if plain is None or plain[1] or (line is not None and plain[0].decode() != line + "\n"):
        sweep.add(1, [f"{name}: without refusal {plain}"])
        return
    with open(counts) as file:
        count = int(file.read())
    wanted = plain[0], plain[2]
    asked = list(refusals(count, most))

    def is_fine(answer):
        return is_recorded(sweep.program, answer) if name.startswith("record") else is_right(answer, wanted)

    answers = zip(asked, sweep.pool.map(ran, asked))
    wrong = [f"{name} {environment}: {answer}" for environment, answer in answers if not is_fine(answer)]
    print(f"{name}: {count} allocations, {len(asked)} runs, {len(wrong)} wrong", flush=True)
    sweep.add(len(asked) + 1, wrong)


def main():
    words = sweeps.parser(__doc__)
    words.add_argument("--most", metavar="N", type=int, default=4000,
                       help="how many allocations of a command are refused at most, evenly spread (default: 4000)")
    words = words.parse_args()
    with sweeps.started(words, built_library) as (sweep, commands):
        for name, (command, line) in commands.items():
            sweep_command(sweep, name, command, line, words.most)


if __name__ == "__main__":
    main()
