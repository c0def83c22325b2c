"""Answers to cases and traces."""
from __future__ import annotations

import enum
from dataclasses import dataclass
from typing import Union

from .rules import Rule


class Fault(enum.Enum):
    """Why a text can't be read; the value is the name that `tcpwit check` prints."""

    HEADER = "header"
    FIELD = "field"
    NUMBER = "number"
    HEX = "hex"
    SEGMENT_SHORT = "segment short"
    SEGMENT_OFFSET = "segment offset"
    SEGMENT_OPTION_LENGTH = "segment option-length"
    SEGMENT_TOO_LONG = "segment too-long"
    MOMENT_FALLS = "moment-falls"
    LINE_TOO_LONG = "line-too-long"
    CUT = "cut"
    TOO_MANY_LINES = "too-many-lines"


class Level(enum.Enum):
    """How much of congestion control is judged, from strict to lax."""

    FULL = "full"
    RECOVERY = "recovery"
    NONE = "none"


@dataclass(frozen=True)
class Yes:
    """The witness explains the trace. It is true, and prints as `tcpwit check` prints it.

    >>> str(Yes(lines=18, hidden=13))
    'yes 18 13'
    """

    lines: int
    hidden: int

    def __bool__(self) -> bool:
        return True

    def __str__(self) -> str:
        return f"yes {self.lines} {self.hidden}"


@dataclass(frozen=True)
class No:
    """The witness doesn't explain the trace. It is false.

    `witness_line` is the line of the first step that breaks a rule, or 0 if something is left at the end; `trace_line`
    is the line of the trace that the step names, or 0.

    >>> bool(No(witness_line=34, trace_line=0, rule=Rule.QUEUE_FULL))
    False
    """

    witness_line: int
    trace_line: int
    rule: Rule

    def __bool__(self) -> bool:
        return False

    def __str__(self) -> str:
        return f"no {self.witness_line} {self.trace_line} {self.rule.value}"


Answer = Union[Yes, No]


class TextError(ValueError):
    """A text can't be read. `line` counts from 1 in its own text; `start` and `stop` count bytes of that line from
    0."""

    text = "text"

    def __init__(self, fault: Fault, line: int, start: int, stop: int) -> None:
        super().__init__(f"bad {self.text} {line} {start} {stop} {fault.value}")
        self.fault = fault
        self.line = line
        self.start = start
        self.stop = stop


class TraceError(TextError):
    """The trace can't be read."""

    text = "trace"


class WitnessError(TextError):
    """The witness can't be read."""

    text = "witness"


@dataclass(frozen=True)
class Judgement:
    """How a trace was judged. It is true if `least` or a stricter level has a yes, and prints as `tcpwit_lab judge`
    prints it."""

    level: Level | None
    """The strictest level with a yes; None if none has one."""
    least: Level
    """The laxest level whose yes counts."""
    text: str
    case: bytes
    """The case of the last level that was tried."""

    def __bool__(self) -> bool:
        levels = list(Level)
        return self.level is not None and levels.index(self.level) <= levels.index(self.least)

    def __str__(self) -> str:
        return self.text
