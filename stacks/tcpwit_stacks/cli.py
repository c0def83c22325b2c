"""The command stacks/run: runs the scenarios, and reports their outcomes as they arrive."""
import contextlib
import functools
import signal
import sys
import tempfile

from . import baseline, files, junit, selection, table, tasks
from .files import say, stop
from .limits import Broken
from .options import arguments
from .scenarios import Fault
from .texts import shown


def report(words, values, outcomes, width=table.NAMES):
    """Prints and writes the outcomes as they arrive, and returns the exit status. `values`: those of the profile;
    `width`: that of the longest name."""
    seen, known, name = [], baseline.known_outcomes(words.against), values["name"]
    bad = functools.partial(baseline.failure, least=words.least or values["level"], known=known,
                            remarks_fail=words.remarks == "fail")
    for outcome in outcomes:
        if not seen:
            table.show_head(width)
        seen.append(outcome)
        table.show(outcome, words.verbose, width)
        if words.junit and files.can_be_written_again(words.junit):
            junit.write_report(seen, name, words.junit, bad)
    table.show_sums(seen)
    if warning := table.warning(seen):
        print(warning, file=sys.stderr)
    if words.junit:
        junit.write_report(seen, name, words.junit, bad, warning)
    if words.write_against:
        files.write(words.write_against, baseline.text(seen))
    if known is not None:
        say("\n".join(baseline.differences(seen, known)) or f"the outcomes match {shown(words.against)}")
    if not words.only_trace:
        selection.remember(words.stack, [outcome.scenario.path for outcome in seen if bad(outcome)])
    return status_of(words, seen, any(map(bad, seen)))


def status_of(words, outcomes, is_bad):
    """The exit status. `is_bad`: whether a scenario failed. If nothing was judged, nothing is good."""
    if all(outcome.word() == "skipped" for outcome in outcomes):
        print("nothing was judged: the adapter can't run any of these scenarios", file=sys.stderr)
        return 2
    if words.only_trace:
        print("nothing was judged: --only-trace", file=sys.stderr)
        return 1
    return 1 if is_bad else 0


def main():
    """Runs the command, and returns its exit status."""
    sys.stdout.reconfigure(errors="backslashreplace")
    signal.signal(signal.SIGTERM, lambda number, frame: sys.exit(128 + number))
    try:
        words = arguments()
        named = selection.failed_last(words.stack) if words.failed else words.scenario
        wanted = list(selection.scenarios_of(named, words.vary))
        baseline.known_outcomes(words.against)
        with tempfile.TemporaryDirectory() as folder:
            task = tasks.task_of(words, folder)
            with contextlib.closing(tasks.outcomes_of(wanted, task, words.jobs)) as outcomes:
                width = table.width_of(scenario.name for scenario in wanted)
                return report(words, task.values, outcomes, width)
    except OSError as fault:
        stop(f"{fault.filename}: {fault.strerror}" if fault.filename else str(fault))
    except (Fault, Broken, ValueError) as fault:
        stop(str(fault))
    except KeyboardInterrupt:
        return 130
