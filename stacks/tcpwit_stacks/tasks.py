"""What all scenarios of a run have in common, and the way of each from the stack to its outcome."""
import concurrent.futures
import os
import time
from dataclasses import dataclass

from . import files, processes, programs
from .host import Cannot
from .limits import Broken, Limits, Watch
from .outcomes import Outcome
from .profiles import header_of, profile, trace_of
from .simulation import Run
from .storms import KEPT


@dataclass
class Task:
    """What all scenarios of a run have in common."""
    command: list
    values: dict            # of the profile
    judge: object           # a Judge; None if nothing is to be judged
    out: str
    limits: Limits
    run_end: float          # when the run's time is up


def task_of(words, folder):
    """What the scenarios have in common; the stack is built in `folder`."""
    for path in filter(None, (words.junit, words.write_against)):
        files.try_to_write(path)
    if words.out:
        os.makedirs(words.out, exist_ok=True)
    command = programs.stack_of(words, folder)
    values = profile(files.read(words.profile) if words.profile else "", words.profile)
    judge = programs.judge_of(words, values)
    bounds = Limits(words.command_limit, words.scenario_limit, words.run_limit, words.events)
    return Task(command, values, judge, words.out, bounds, time.monotonic() + words.run_limit)


def outcomes_of(wanted, task, jobs):
    """Runs and judges the scenarios, and yields the outcomes in their order as they become available."""
    workers, before = concurrent.futures.ThreadPoolExecutor(jobs), processes.adopt()
    try:
        yield from workers.map(lambda scenario: one(scenario, task), wanted)
    finally:
        processes.end_all()
        workers.shutdown(cancel_futures=True)
        processes.end_orphans(before)


def one(scenario, task):
    """Runs and judges one scenario."""
    outcome, began = Outcome(scenario), time.monotonic()
    try:
        watch = Watch(task.limits, task.run_end)
        watch.left("before this scenario began")
        run = Run(scenario, task.command, watch, task.values["options"])
        record(outcome, run, task)
        if not outcome.answer:
            judge_and_keep(outcome, run, task.values, task.judge.watched(watch) if task.judge else None, task.out)
    except Broken as cause:
        outcome.answer = f"broken {cause}"
    except processes.Stopped:
        outcome.answer = "broken the run was stopped"
    outcome.seconds = time.monotonic() - began
    return outcome


def record(outcome, run, task):
    """Runs a scenario and records its results, even if it doesn't finish."""
    try:
        run.run()
    except Cannot as cause:
        outcome.answer = f"skipped {cause}"
        return
    finally:
        outcome.lines, outcome.resent, outcome.expired = len(run.lines), run.resent, run.expired
        outcome.said = [line for each in run.hosts for line in each.tail()]
        if task.out:
            files.write(os.path.join(task.out, run.scenario.name + ".trace"),
                        trace_of(task.values, run.peer, run.lines, task.values["level"]))
    outcome.unexpected, outcome.waiting = run.unexpected + run.stuck(), run.waiting()
    if run.early:
        note_early_end(outcome, run, task.values)
    outcome.missing = 0 if run.peer else max(0, sum(run.sent.values()) - sum(run.received.values()))


def note_early_end(outcome, run, values):
    """Notes that a run was ended after too many events, and where a storm began."""
    text = f"run: ended after {run.count} events"
    if run.storm is not None:
        line = len(header_of(values, run.peer, values["level"])) + run.storm + 1
        text += f": a storm of acknowledgments from line {line} of the trace on, of which {KEPT} lines are kept"
        outcome.notes.append(f"line {line}: {run.lines[run.storm]}")
    outcome.unexpected.append(text)


def judge_and_keep(outcome, run, values, judge, out):
    """Judges one scenario. NAME.case is judged at the profile's level; NAME.LEVEL.case has a yes at a laxer one."""
    if not judge:
        outcome.answer = "recorded"
        return
    cases = judge.judge(outcome, run, values)
    for level, case in cases.items() if out else ():
        more = "" if level == outcome.first else f".{level}"
        files.write(os.path.join(out, outcome.scenario.name + more + ".case"), case)
