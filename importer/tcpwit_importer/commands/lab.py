"""Judges traces with `tcpwit_lab judge`, saves the cases and draws them."""
import ctypes
import gc
import os
import shutil
import signal
import subprocess
import sys
import tempfile

from ..files import remove, write_file
from ..problem import Problem, decoded, not_run, plain
from ..progress import Part
from ..trace import header as headers
from .levels import joined, runs

TOP = os.path.realpath(f"{__file__}/../../../..")
NAME, VARIABLE = "tcpwit_lab", "TCPWIT_LAB"
NAME_IT = f"name the program {NAME} with --lab or {VARIABLE}"
YES, NO, FAULTY = range(3)
MEMORY, DEVICE = 4, 5
LESS = "record fewer bytes, or judge the trace on a machine with more memory"
# Remedies, by the status of a `judge` that failed. Linux kills programs if memory runs out.
REMEDIES = {FAULTY: f"read what {NAME} explain prints about it", MEMORY: LESS, -signal.SIGKILL: LESS,
            DEVICE: "choose a place that can be written and has space for the case"}


def program(option):
    """The program tcpwit_lab: from the option, the variable TCPWIT_LAB or PATH, else the one that ./tcpwit_lab runs."""
    place = option or os.environ.get(VARIABLE)
    if place and (cause := not_run(place)):
        raise Problem(f"{place}: {cause}", NAME_IT)
    found = place or shutil.which(NAME) or kept()
    if found is None:
        raise Problem(f"{NAME} is not in PATH, and not built in this repository",
                      f"install the package tcpwit, which contains tcpwit and {NAME} (packaging/README.md), or name "
                      f"{NAME} with --lab or {VARIABLE}; with --no-check, nothing is judged")
    found = os.path.abspath(found)
    # Refuse a program without `judge` here rather than after a long recording. `judge` refuses an empty trace.
    if on_file([found, "judge"], os.devnull).returncode != FAULTY:
        raise Problem(f"{found} has no command judge",
                      f"name {NAME} with --lab or {VARIABLE}, not tcpwit; if it is old, build it again from these "
                      "sources (docs/start/linux.md)")
    return found


def kept():
    """The program that a clone's ./tcpwit_lab runs, built if it is missing; None outside a clone or if it can't be
    built."""
    keeper = os.path.join(TOP, "tools", "unproved.py")
    if not os.path.exists(keeper):
        return None
    done = subprocess.run([sys.executable, keeper, "--keep", NAME], stdout=subprocess.PIPE, text=True, check=False)
    return done.stdout.strip() if done.returncode == 0 else None


def case_of(trace):
    """The file of a trace's case, next to the trace."""
    return trace.removesuffix(".trace") + ".case"


def judge_all(program, traces, least, options):
    """Judges trace files with --slack, from --from or the weakest level on whose yes counts, prints the lines of each
    and returns the highest status."""
    words = []
    if options.slack is not None:
        words += ["--slack", str(options.slack)]
    if options.budget is not None:
        words += ["--budget", str(options.budget)]
    with Part("freeing the memory of the import"):
        release_memory()
    worst = YES
    for name, trace in traces.items():
        lines, status = judge(program, trace, runs(options.version, least, options.start), words)
        if len(traces) > 1:
            lines = [f"{name}:"] + ["  " + line for line in lines]
        print("\n".join(map(plain, lines)), flush=True)
        worst = max(worst, status)
    return worst


def release_memory():
    """Returns the memory of what is no longer used to the system: `judge` needs about twice as much as an import."""
    gc.collect()
    if trim := getattr(ctypes.CDLL(None), "malloc_trim", None):
        trim(0)


def judge(program, trace, runs_of_it, words):
    """The lines of `judge` in these runs with these options, and the status: 0 if a level that counts has a yes, 1 if
    not. The case is saved."""
    if not os.path.isfile(trace):
        raise Problem(f"{trace} isn't a file that can be read again",
                      "name a file with --out, or skip judging with --no-check")
    lines, status = [], NO
    for run in runs_of_it:
        found, status = judge_once(program, trace, run.version, [*run.words, *words])
        lines = joined(lines, found)
        if status == YES:
            return lines, YES if run.counts else NO
    return lines, status


def judge_once(program, trace, version, words):
    """The lines and the status of a run. The case is saved."""
    folder, name = os.path.split(case_of(trace))
    status = None
    try:
        with Part(f"judging {trace}"):
            done = on_trace([program, "judge", *words, "--case", "./" + name], trace, folder or ".", version)
        status = done.returncode
    finally:
        if status not in (YES, NO):
            # An incomplete case would look like a whole one.
            remove(case_of(trace))
    lines = decoded(done.stdout).splitlines()
    if status not in (YES, NO):
        said = "; ".join(lines[:1] + decoded(done.stderr).splitlines()[-1:])
        raise Problem(f"{trace}: {said or ended(status)}",
                      REMEDIES.get(status, f"check whether this works: {program} judge < {trace}"))
    return lines, status


def draw(program, trace):
    """Draws the case of a trace next to it, if it can be drawn."""
    with Part(f"drawing {case_of(trace)}"):
        drawn = on_file([program, "draw"], case_of(trace))
    if drawn.returncode == 0:
        write_file(trace.removesuffix(".trace") + ".svg", [drawn.stdout])


def on_trace(words, name, folder, version):
    """Runs a program on a trace's file, in its folder. If the trace has another version, the program reads a copy in
    this one."""
    with open(name, "rb") as file:
        head = [file.readline().decode("ascii")]
        head += [file.readline().decode("ascii") for _ in headers.LINES[int(head[0].split()[1])]]
        if head[0] == f"trace {version}\n":
            return on_file(words, name, folder)
        with tempfile.TemporaryFile(dir=folder) as copy:
            copy.writelines(f"{line}\n".encode() for line in headers.in_version(version, head))
            shutil.copyfileobj(file, copy)
            copy.seek(0)
            return run(words, copy, folder)


def on_file(words, name, folder=None):
    """Runs a program on a file, in a folder."""
    with open(name, "rb") as source:
        return run(words, source, folder)


def run(words, source, folder):
    """Runs a program that reads this file, in a folder."""
    try:
        return subprocess.run(words, stdin=source, capture_output=True, check=False, cwd=folder)
    except OSError as error:
        raise Problem(f"{words[0]}: {error.strerror}", NAME_IT) from error


def ended(status):
    """How a program ended, in words."""
    return f"{NAME} was ended by signal {-status}" if status < 0 else f"{NAME} ended with status {status}"
