"""The lines that `tcpwit check` and `tcpwit many` print, and their exit statuses."""
import re

# The statuses of tcpwit.
YES, NO, REFUSED, USAGE, MEMORY, DEVICE = range(6)
NUMBER = "(?:0|[1-9][0-9]*)"
FORMS = [
    (YES, re.compile(f"yes {NUMBER} {NUMBER}")),
    (NO, re.compile(f"no {NUMBER} {NUMBER} [a-z-]+")),
    (REFUSED, re.compile(f"bad (?:trace|witness) {NUMBER} {NUMBER} {NUMBER} [a-z-]+(?: [a-z-]+)?")),
    (USAGE, re.compile("bad usage")),
    (MEMORY, re.compile("bad memory")),
    (DEVICE, re.compile("bad device")),
]


class NoAnswer(Exception):
    """A line that isn't an answer to a case, or too few or too many lines."""


def status_of(line):
    """The exit status of `tcpwit check` if it prints this line."""
    for status, form in FORMS:
        if form.fullmatch(line):
            return status
    raise NoAnswer(f"not an answer of tcpwit: {line[:200]!r}")


def split(text, wanted=None):
    """The lines of a text, without their ends. If `wanted` is given, there must be that many."""
    found = text.split("\n")
    if found.pop():
        raise NoAnswer("the last line is incomplete")
    if wanted is not None and len(found) != wanted:
        raise NoAnswer(f"expected {wanted} answers, got {len(found)}")
    return found


def greatest_status(lines):
    """The exit status of `tcpwit many` if it prints these lines."""
    return max(map(status_of, lines), default=YES)
