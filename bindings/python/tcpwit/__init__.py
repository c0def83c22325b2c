"""Checks recorded runs of TCP hosts against RFC 9293, 5681 and 6298.

>>> import tcpwit
>>> answer = tcpwit.check("trace 1\\nskew 0\\nmsl 120000000\\ngrain 1000\\nminrto 1000000\\nextra 0\\nwitness 1\\n")
>>> answer
Yes(lines=0, hidden=0)
>>> print(answer)
yes 0 0

`check` judges a case, which is a trace and its witness; it is the proved code of `tcpwit check`. `judge` looks for a
witness of a trace and judges it at each level. `Trace` writes traces. The functions may be called from any number of
threads; while one runs, other threads run Python code. If memory runs out, they raise MemoryError.
"""
from __future__ import annotations

import ctypes
import re
from typing import Union

from . import library
from .answers import Answer, Fault, Judgement, Level, No, TextError, TraceError, WitnessError, Yes
from .library import ANY_SLACK, LIBRARY, USUAL_BUDGET, USUAL_SLACK
from .rules import Rule
from .trace import Trace

__all__ = ["ANY_SLACK", "Answer", "Fault", "Judgement", "Level", "No", "Rule", "TextError", "Trace", "TraceError",
           "USUAL_BUDGET", "USUAL_SLACK", "WitnessError", "Yes", "check", "check_two", "explain", "find", "judge",
           "remark"]

Text = Union[str, bytes, Trace]

_RULES = {rule.number: rule for rule in Rule}
_FAULTS = dict(zip([1, 2, 3, 4, 5, 6, 7, 8, 10, 11, 12, 13], Fault))
_LEVELS = dict(enumerate(Level))
# The line that the library gives if a text can't be read.
_REFUSED = re.compile(r"bad (trace|witness) (\d+) (\d+) (\d+) (.*)\n")


def _bytes(text: Text) -> bytes:
    """The bytes of a text."""
    if isinstance(text, Trace):
        text = text.text()
    return text.encode() if isinstance(text, str) else bytes(text)


def _answer(given: library.Answer) -> Answer:
    """The answer that the numbers stand for."""
    if given.kind == 0:
        return Yes(given.lines, given.hidden)
    if given.kind == 1:
        return No(given.witness_line, given.trace_line, _RULES[given.rule])
    if given.kind == 4:
        raise MemoryError("tcpwit ran out of memory")
    error = TraceError if given.kind == 2 else WitnessError
    raise error(_FAULTS[given.fault], given.fault_line, given.fault_start, given.fault_stop)


def _refuse(said: bytes) -> None:
    """Raises the fault that a line of the library names."""
    match = _REFUSED.fullmatch(said.decode())
    if match is None:
        raise ValueError(said.decode().strip())
    error = TraceError if match[1] == "trace" else WitnessError
    raise error(Fault(match[5]), int(match[2]), int(match[3]), int(match[4]))


def check(case: Text) -> Answer:
    """The verdict on a case: a trace, and then its witness. Raises TraceError or WitnessError if one can't be read."""
    text, answer = _bytes(case), library.Answer()
    LIBRARY.tcpwit_check(text, len(text), ctypes.byref(answer))
    return _answer(answer)


def check_two(trace: Text, witness: Text) -> Answer:
    """The verdict on a case whose trace and witness are two texts."""
    lines, steps, answer = _bytes(trace), _bytes(witness), library.Answer()
    LIBRARY.tcpwit_check_two(lines, len(lines), steps, len(steps), ctypes.byref(answer))
    return _answer(answer)


def explain(case: Text, simulated: bool = False) -> str:
    """What `tcpwit_lab explain` prints: the answer, and after a no the step, the state before it, and usual causes."""
    text, said = _bytes(case), library.Text()
    LIBRARY.tcpwit_explain(text, len(text), simulated, ctypes.byref(said))
    return library.taken(said).decode()


def remark(case: Text) -> list[str]:
    """Suspicious behavior in a case that breaks no rule: a line for each."""
    text, said = _bytes(case), library.Text()
    status = LIBRARY.tcpwit_remark(text, len(text), ctypes.byref(said))
    lines = library.taken(said)
    if status == 2:
        _refuse(lines)
    return lines.decode().splitlines()


def find(trace: Text, budget: int = USUAL_BUDGET) -> bytes:
    """A case of the trace, with the witness that the search found. If it found none, `check` refuses the case."""
    text, said = _bytes(trace), library.Text()
    status = LIBRARY.tcpwit_find(text, len(text), budget, ctypes.byref(said))
    case = library.taken(said)
    if status != 0:
        _refuse(case)
    return case


def judge(trace: Text, level: Level = Level.FULL, slack: int = USUAL_SLACK, budget: int = USUAL_BUDGET) -> Judgement:
    """Judges a trace at each level until one has a yes. The judgement is true if `level` or a stricter one has a yes.

    `slack` is in microseconds: how late a host may be with its duties. By default, it is that of a trace of version 5
    or 6, else a second; ANY_SLACK leaves duties unjudged. `budget` bounds what the search spends on going back.
    """
    text, given = _bytes(trace), library.Judgement()
    status = LIBRARY.tcpwit_judge(text, len(text), slack, budget, ctypes.byref(given))
    said = library.taken(given.said)
    if status == 3:
        raise ValueError("slack is above 10**18")
    if status == 2:
        _refuse(said)
    return Judgement(_LEVELS.get(given.level), level, said.decode(), library.taken(given.found))
