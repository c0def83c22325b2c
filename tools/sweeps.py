"""What the sweeps over failing devices and over refused memory have in common."""
import argparse
import concurrent.futures
import contextlib
import os
import subprocess
import sys
import tempfile

from commands import commands


def parser(about):
    """The parser of a sweep's command line. `about` is the docstring of its script."""
    words = argparse.ArgumentParser(description=about.splitlines()[0])
    words.add_argument("program", metavar="PROGRAM", help="the program tcpwit")
    words.add_argument("cases", metavar="CASES", help="the folder of the case files, crates/test_cases/data")
    words.add_argument("--jobs", metavar="N", type=int, default=os.cpu_count(),
                       help="how many runs at once (default: one for each processor)")
    return words


def built_library(source, folder):
    """Builds a C file as a library that LD_PRELOAD loads."""
    library = os.path.join(folder, os.path.basename(source).replace(".c", ".so"))
    subprocess.run(["cc", "-O2", "-Wall", "-shared", "-fPIC", "-o", library, source], check=True)
    return library


class Sweep:
    """The program, the library that is loaded into it, a folder, workers, and how many runs there were and which ended
    wrong."""

    def __init__(self, program, library, folder, pool):
        self.program, self.library, self.folder, self.pool = os.path.abspath(program), library, folder, pool
        self.runs, self.wrong = 0, []

    def add(self, runs, wrong):
        """Adds runs, and those of them that ended wrong, as texts."""
        self.runs += runs
        self.wrong += wrong


@contextlib.contextmanager
def started(words, library_in):
    """A sweep, and the commands that it runs. `library_in` builds its library in a folder. At the end, it prints the
    wrong runs and the counts, and ends the script with status 1 if there are any."""
    with tempfile.TemporaryDirectory() as folder, concurrent.futures.ThreadPoolExecutor(words.jobs) as pool:
        sweep = Sweep(words.program, library_in(folder), folder, pool)
        yield sweep, commands(words.cases, folder)
    for text in sweep.wrong:
        print(text)
    print(f"{sweep.runs} runs, {len(sweep.wrong)} wrong")
    sys.exit(1 if sweep.wrong else 0)
