"""The judge of a run: `tcpwit_lab`, which finds a witness, and `tcpwit check`, whose answer counts."""
import copy
import json
import os
import tempfile

from . import processes
from .limits import Broken
from .outcomes import FULL, LEVELS
from .profiles import USUAL, WITH_SACK, shown_expiries, trace_of
from .texts import shown

# The commands of tcpwit_lab. The segments came over a simulated wire, so no capture can have changed them.
EXPLAIN, REMARK, LEVELS_OF = ["explain", "--simulated", "--json"], ["remark", "--json"], ["judge", "--json"]
# The timer that no trace of `full` may have.
PROBE = "pto"
# How many seconds a program may take in a trial before the first scenario.
LIMIT = 60


class Judge:
    def __init__(self, check, lab, watch=None, budget=None):
        """The commands of tcpwit and tcpwit_lab, the limits of a scenario, and the search's budget (None: the usual
        one)."""
        self.check, self.lab, self.watch = check, lab, watch
        self.budget = ["--budget", str(budget)] if budget is not None else []

    def watched(self, watch):
        """The same judge, within the limits of a scenario."""
        judge = copy.copy(self)
        judge.watch = watch
        return judge

    # ---- the programs ----

    def call(self, program, words, text):
        """A program's output and status, with these arguments."""
        where = shown(f"in {' '.join([*map(os.path.basename, program), *words[:1]])}")
        told, status = processes.call([*program, *words], text, self.watch.left(where) if self.watch else LIMIT)
        if told is None:
            raise Broken(f"{self.watch.cause if self.watch else f'it took more than {LIMIT} s'}, {where}")
        return told, status

    def answer(self, case):
        """What `tcpwit check` answers."""
        told, status = self.call(self.check, ["check"], case)
        if not told.strip():
            raise Broken(shown(f"{' '.join(self.check)} check printed nothing and ended with status {status}"))
        return shown(told.strip())

    def case(self, trace, expiries=()):
        """The trace with the witness that `tcpwit_lab find` finds. `expiries`: the option for them, if any."""
        return self.call(self.lab, ["find", *self.budget, *expiries], trace)[0]

    def object(self, words, text):
        """The object that `tcpwit_lab` prints with --json."""
        told, status = self.call(self.lab, words, text)
        try:
            return json.loads(told)
        except ValueError:
            cause = f"{' '.join(self.lab)} {words[0]} printed no object and ended with status {status}"
            raise Broken(shown(cause)) from None

    # ---- before the first scenario ----

    def unfit(self):
        """The program that is older than the suite, which needs format version 6, --expiries and --json; empty if none
        is."""
        case = self.case(trace_of(USUAL, False, [], LEVELS[-1]), shown_expiries({"expiries": "all"}, False))
        try:
            told = [self.object(words, case) for words in (EXPLAIN, REMARK, LEVELS_OF)]
        except Broken:
            told = []
        if not case.startswith(f"trace {WITH_SACK}\n") or not told:
            return " ".join(self.lab)
        return "" if self.answer(case).startswith("yes") else " ".join(self.check)

    def empty(self, values):
        """The answer for an empty trace with these values of a profile."""
        return self.answer(self.case(trace_of(values, False, [], LEVELS[-1])))

    # ---- a scenario ----

    def judge(self, outcome, run, values):
        """Finds witnesses and fills in the outcome. Returns the case of the profile's level and that of the strictest
        level with a yes, keyed by level."""
        first, expiries = values["level"], shown_expiries(values, run.peer)
        if first == FULL and any(line.endswith(f" {PROBE}") for line in run.lines):
            raise Broken(f"the stack reported the timer {PROBE}, so its profile needs `level {LEVELS[1]}`")
        cases = {first: self.case(trace_of(values, run.peer, run.lines, first), expiries)}
        outcome.first, outcome.answer = first, self.answer(cases[first])
        if outcome.answer.startswith("yes"):
            outcome.level = first
        else:
            self.explain(outcome, cases[first])
        if outcome.answer.startswith("no") and first != LEVELS[-1]:
            self.try_laxer_levels(outcome, run, values, cases)
        if outcome.is_judged():
            self.remark(outcome, cases[outcome.level or first])
        return cases

    def explain(self, outcome, case):
        """Says why the profile's level refuses a case. A limit that is reached doesn't change the verdict."""
        try:
            outcome.why = [shown(line) for line in self.object(EXPLAIN, case)["said"][1:] if line.strip()]
        except Broken as cause:
            outcome.notes.append(f"run: {cause}; the explanation wasn't finished")

    def try_laxer_levels(self, outcome, run, values, cases):
        """Looks for the strictest level with a yes, after a no at that of the profile."""
        level, expiries = LEVELS[LEVELS.index(outcome.first) + 1], shown_expiries(values, run.peer)
        trace = trace_of(values, run.peer, run.lines, level)
        try:
            with tempfile.NamedTemporaryFile() as file:
                words = [*LEVELS_OF, "--least", level, *self.budget, *expiries, "--case", file.name]
                found = self.object(words, trace)
                outcome.laxer = [f"{each['level']}: {shown(each['sentence'])}" for each in found["levels"]
                                 if each.get("rule", outcome.rule()) != outcome.rule()]
                if found["answer"] != "yes":
                    return
                with open(file.name, encoding="utf-8", errors="backslashreplace") as written:
                    case = written.read()
            answer = self.answer(case)
        except Broken as cause:
            outcome.unexpected.append(f"run: {cause}; the levels after {outcome.first} weren't finished")
            return
        if not answer.startswith("yes"):
            raise Broken(f"at {found['level']}, tcpwit_lab judges yes, but tcpwit answers {answer}")
        outcome.refused, outcome.answer, outcome.level = outcome.answer, answer, found["level"]
        cases[outcome.level] = case

    def remark(self, outcome, case):
        """Lists the remarks. A limit that is reached doesn't change the verdict."""
        try:
            outcome.remarks = [shown(line) for line in self.object(REMARK, case)["said"]]
        except Broken as cause:
            outcome.unremarked = f"run: {cause}; the remarks weren't finished"
