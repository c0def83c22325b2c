"""The command line of stacks/run."""
import argparse
import re

from .files import say
from .outcomes import LEVELS
from .texts import shown

DESCRIPTION = """\
Runs a stack through the scenarios and judges each run.

STACK is a folder next to this program (`lwip`, `gvisor`), with a script `build` and a file `profile`, or a program
linked with driver.c, whose profile --profile names. A word with a slash is a path: `./toy` is the program or folder
`toy` here. SCENARIO selects one scenario by the name of its file in scenarios/ or by a path, or several by the
beginning of their names. Without it, all scenarios run. A suffix, as in `data-bulk+delay-0.7`, `+loss-5` or `+seed-2`,
selects a variant.

A verdict first judges all of congestion control (full). After a no, less is judged: only when outstanding data is
retransmitted (recovery), or nothing (none); SACK counts there. The verdict shows the strictest level with a yes: `yes`
at full, else `yes at recovery` or `yes at none`; without one, it is `no`. It has `but` if something didn't happen as
the scenario expects. A profile's line `level` names the level that is judged first, if it isn't full. A scenario is
good if the level of --least (default: the profile's) or a stricter one has a yes, without `but`. With --remarks fail,
it also has no remarks.

The status is 0 if every scenario is good or, with --against, if every outcome equals that in the file. It is 1
otherwise, or if nothing is judged (--only-trace), and 2 if something can't be run or all scenarios are skipped. In
other cases, skipped scenarios don't count.

Without --check and --lab, the programs are those that the variables TCPWIT and TCPWIT_LAB name, else those in PATH,
else a clone's ./tcpwit and ./tcpwit_lab, which are built once.
"""


def at_least_one(text):
    """An argparse type: a number of at least 1."""
    if not (text.isascii() and text.isdigit() and int(text) > 0):
        raise argparse.ArgumentTypeError(f"{text!r} isn't a number of at least 1")
    return int(text)


def some_budget(text):
    """An argparse type: a number of steps."""
    if not re.fullmatch("0|[1-9][0-9]*", text) or int(text) >= 1 << 64:
        raise argparse.ArgumentTypeError(f"{text!r} isn't a number below 2^64")
    return int(text)


def some_name(text):
    """An argparse type: the name of a file, a folder or a program."""
    if not text:
        raise argparse.ArgumentTypeError("the name is empty")
    return text


def some_seconds(text):
    """An argparse type: a number of seconds above 0."""
    if not re.fullmatch(r"[0-9]+(\.[0-9]+)?", text) or float(text) == 0:
        raise argparse.ArgumentTypeError(f"{text!r} isn't a number of seconds above 0")
    return float(text)


class Parser(argparse.ArgumentParser):
    """Parses the command line. Errors quote arguments escaped, like other text from outside."""

    def error(self, message):
        super().error(shown(message))

    def print_help(self, file=None):
        say(self.format_help().rstrip())


def parser():
    """The parser of the command line."""
    words = Parser(description=DESCRIPTION, formatter_class=argparse.RawDescriptionHelpFormatter)
    words.add_argument("stack", metavar="STACK", help="a folder next to this program, a program, or a path")
    words.add_argument("scenario", metavar="SCENARIO", nargs="*",
                       help="names, files, or beginnings of names (default: all scenarios)")
    words.add_argument("--vary", action="store_true",
                       help="run each scenario that has a wire again with other delays, losses and seeds, "
                            "as variants with names of their own")
    words.add_argument("--profile", metavar="FILE", type=some_name,
                       help="the stack's profile (default: that of its folder)")
    words.add_argument("--least", choices=LEVELS,
                       help="the least strict level whose yes is good (default: the profile's level)")
    words.add_argument("--remarks", choices=("count", "fail"), default="count",
                       help="whether a scenario with remarks fails (default: they are only counted)")
    words.add_argument("--budget", metavar="N", type=some_budget,
                       help="how many steps the search spends on going back for one line (default: that of tcpwit_lab)")
    words.add_argument("--out", metavar="DIR", type=some_name, help="save traces and cases in this folder")
    words.add_argument("--junit", metavar="FILE", type=some_name,
                       help="write a report for a build server; scenarios that aren't good are failures")
    words.add_argument("--write-against", metavar="FILE", type=some_name,
                       help="write the outcomes to this file, one per line")
    words.add_argument("--against", metavar="FILE", type=some_name,
                       help="compare the outcomes with such a file; the status depends on this")
    words.add_argument("--check", metavar="PROGRAM", type=some_name, help="the program tcpwit")
    words.add_argument("--lab", metavar="PROGRAM", type=some_name, help="the program tcpwit_lab")
    words.add_argument("--only-trace", action="store_true", help="record, but don't judge")
    add_limits(words)
    words.add_argument("--failed", action="store_true", help="rerun the scenarios that failed in this stack's last run")
    words.add_argument("-v", "--verbose", action="store_true",
                       help="print what each scenario shows, the sentence it is based on, its time, and standard error")
    return words


def add_limits(words):
    """Adds the options that limit a run."""
    words.add_argument("--jobs", metavar="N", type=at_least_one, default=2,
                       help="how many scenarios run at once (default: 2)")
    words.add_argument("--command-limit", metavar="SECONDS", type=some_seconds, default=5,
                       help="how long a stack may take for one command (default: 5)")
    words.add_argument("--scenario-limit", metavar="SECONDS", type=some_seconds, default=60,
                       help="how long a scenario may take, judging included (default: 60)")
    words.add_argument("--run-limit", metavar="SECONDS", type=some_seconds, default=3600,
                       help="how long the whole run may take (default: 3600)")
    words.add_argument("--events", metavar="N", type=at_least_one, default=20_000,
                       help="end a scenario after this many events (default: 20000)")


def arguments():
    """The options and arguments of the command line."""
    words = parser()
    given = words.parse_intermixed_args()
    if given.failed and (given.scenario or given.vary):
        words.error("--failed selects the scenarios itself")
    if given.only_trace and given.remarks == "fail":
        words.error("--only-trace judges nothing, so there are no remarks")
    if given.only_trace and given.budget is not None:
        words.error("--only-trace judges nothing, so nothing is searched")
    if given.only_trace and (given.against or given.write_against):
        words.error("--only-trace judges nothing, so there are no outcomes for --against or --write-against")
    return given
