"""The programs of a run: tcpwit, tcpwit_lab and the stack."""
import errno
import os
import shutil
import subprocess
import sys

from .files import TOP, stop, why_no_file
from .judge import Judge

# The programs that judge, each with the option and the variable that name it. One package has both.
PROGRAMS = {"tcpwit": ("check", "TCPWIT"), "tcpwit_lab": ("lab", "TCPWIT_LAB")}


def why_not_run(path):
    """Why no program with this name can be run."""
    if os.path.basename(path) == path:
        return "PATH has no such program"
    return why_no_file(path) or os.strerror(errno.EACCES)


def program(name, given):
    """A program: from the option, the variable or PATH, else the one that a clone's ./tcpwit or ./tcpwit_lab runs; None
    if none exists."""
    option, variable = PROGRAMS[name]
    for path, origin in ((given, f"--{option} {given}"),
                         (os.environ.get(variable), f"{variable}={os.environ.get(variable)}")):
        if path:
            return path if shutil.which(path) else stop(f"{name} isn't found: {origin}: {why_not_run(path)}")
    return shutil.which(name) or kept(name)


def kept(name):
    """The program that a clone's ./NAME runs, built if it is missing; None outside a clone or if it can't be built."""
    keeper = os.path.join(os.path.dirname(TOP), "tools", "unproved.py")
    if not os.path.exists(keeper):
        return None
    done = subprocess.run([sys.executable, keeper, "--keep", name], stdout=subprocess.PIPE, text=True)
    return done.stdout.strip() if done.returncode == 0 else None


def programs(words):
    """Both programs that judge, each as a command."""
    found = {name: program(name, getattr(words, option)) for name, (option, _) in PROGRAMS.items()}
    lacking = [name for name in PROGRAMS if not found[name]]
    if not lacking:
        return [[path] for path in found.values()]
    there = "".join(f", but {name} is: {path}" for name, path in found.items() if path)
    stop(f"{' and '.join(lacking)} {'are' if len(lacking) > 1 else 'is'}n't found{there}. The package tcpwit contains "
         f"both (packaging/README.md). Otherwise give {' and '.join('--' + PROGRAMS[name][0] for name in lacking)}, "
         f"or set {' and '.join(PROGRAMS[name][1] for name in lacking)}.")


def judge_of(words, values):
    """The judge; None with --only-trace."""
    if words.only_trace:
        return None
    judge = Judge(*programs(words), budget=words.budget)
    if unfit := judge.unfit():
        stop(f"{unfit} is older than this suite: build tcpwit and tcpwit_lab again from the same sources")
    answer = judge.empty(values)
    if not answer.startswith("yes"):
        stop(f"{words.profile}: with these values, even an empty trace gets the answer {answer!r}")
    return judge


def folder_of(stack):
    """The folder that builds a stack: the suite's own of this name or, if the word has a slash, the one at that path.
    None: it names a program."""
    folder = stack if os.path.dirname(stack) else os.path.join(TOP, stack)
    return os.path.abspath(folder) if os.path.isdir(folder) else None


def stack_of(words, folder):
    """The command that runs the stack, and its profile. A stack with a folder is built in `folder`."""
    if own := folder_of(words.stack):
        if not os.path.isfile(os.path.join(own, "build")):
            stop(f"{words.stack} is a folder, but {own}/build is no file: name a program, or a folder with `build` and "
                 "`profile`")
        built = subprocess.run([os.path.join(own, "build"), folder])
        if built.returncode or not os.path.isfile(os.path.join(folder, "stack")):
            stop(f"{own}/build didn't build the stack")
        words.profile = words.profile or os.path.join(own, "profile")
        return [os.path.join(folder, "stack")]
    if not shutil.which(words.stack):
        stop(f"{words.stack} is neither a folder next to {sys.argv[0]} nor a program: {why_not_run(words.stack)}")
    return [os.path.abspath(shutil.which(words.stack))]
