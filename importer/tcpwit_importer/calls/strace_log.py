"""Reads logs of strace: which process called what and when, and what the call returned.

A call doesn't begin before its line's moment. strace reads the clock for a line before it decodes the call, and for the
duration (-T) afterwards, so the beginning plus the duration may be earlier than the call's effect. A call has ended
when the log shows that it was resumed, or else by the moment of the next line, since strace handled the call's end
before that line.
"""
import re
from typing import NamedTuple

from ..files import opened
from ..problem import Problem

LINE = re.compile(r"^(?:\[pid\s+(\d+)\]\s+|(\d+)\s+)?(\d+)\.(\d+)\s+(.*)$", re.DOTALL)
NO_UNIX_TIME = re.compile(r"^(?:\[pid\s+\d+\]\s+|\d+\s+)?(?:\d\d:\d\d:\d\d|\w+\()")
CALL = re.compile(r"^(\w+)\((.*)\)\s*= (-?\d+|0x[0-9a-f]+|\?)(?:<((?:->|[^<>])*)>)?(?: (E\w+))?[^\"]*$", re.DOTALL)
UNFINISHED = "<unfinished ...>"
RESUMED = re.compile(r"^<\.\.\. (\w+) resumed>\s?(.*)$", re.DOTALL)
GIVING = ("socket", "accept", "accept4", "dup", "dup2", "dup3", "pidfd_getfd")
HOW = "strace -f --decode-fds=socket --absolute-timestamps=format:unix,precision:ns -xx -s 1048576 -o FILE .."


class SystemCall(NamedTuple):
    """A call of a process: its beginning and end in nanoseconds, or None if it didn't end; its result, or None if it
    had none; what strace printed about the file of the descriptor that it returned."""
    process: int
    begin: int
    end: int | None
    name: str
    text: str
    result: int | None
    error: str | None
    place: str
    file: str = ""

    @property
    def when(self):
        """When the call counts: a call that returns descriptors at its end, any other at its beginning. A message that
        passes descriptors may be received before the log shows that its send ended, but not before the send began."""
        gives = self.name in GIVING or "F_DUPFD" in self.text or (self.name == "recvmsg" and "SCM_RIGHTS" in self.text)
        return self.end if gives and self.end is not None else self.begin


class Exit(NamedTuple):
    """A process that has ended by the moment `end`, but not before `begin`."""
    process: int
    begin: int
    end: int
    place: str

    @property
    def when(self):
        """The moment at which its descriptors count as closed."""
        return self.end


class _Line(NamedTuple):
    process: int
    moment: int
    text: str
    place: str
    unit: int

    @property
    def latest(self):
        """The latest moment that is printed like this: moments are truncated to microseconds, or exact."""
        return self.moment + self.unit - 1


def read_log(names):
    """The events of the logs of one host, in the order in which they count."""
    events = []
    for number, name in enumerate(names):
        events += _events(_lines(name, number))
    events.sort(key=lambda event: event.when)
    if not any(isinstance(event, SystemCall) for event in events):
        raise Problem(f"{', '.join(names)}: no system call in the log", f"record the calls: {HOW}")
    return events


def _lines(name, number):
    """The lines, with their moments. Without a column of processes, the process is the end of the file name, as with
    strace -ff."""
    end = name.rsplit(".", 1)[-1]
    alone = int(end) if end.isdigit() else -1 - number
    with opened(name, "name a log that can be read", text=True) as file:
        for count, raw in enumerate(file, 1):
            found = LINE.match(raw)
            if found:
                process = int(found[1] or found[2] or alone)
                moment = int(found[3]) * 10**9 + int(found[4].ljust(9, "0")[:9])
                yield _Line(process, moment, found[5].rstrip("\n"), f"{name}, line {count}",
                            1 if len(found[4]) > 6 else 1000)
            elif NO_UNIX_TIME.match(raw):
                raise Problem(f"{name}, line {count}: no moment in seconds since 1970", f"record it with: {HOW}")


def _with_next(lines):
    """Each line with the next one."""
    line = next(lines, None)
    while line:
        following = next(lines, None)
        yield line, following
        line = following


def _events(lines):
    """Calls and ends of processes. `open_calls` has the calls that have begun but not ended, `seen` each process's last
    moment."""
    open_calls, seen, events = {}, {}, []
    for line, following in _with_next(lines):
        after, text = (following or line).latest, line.text
        if text.startswith("+++ "):
            if not text.startswith("+++ superseded"):
                events.append(Exit(line.process, seen.get(line.process, line.moment), line.latest, line.place))
        elif text.endswith(UNFINISHED):
            open_calls[line.process] = line._replace(text=text[:-len(UNFINISHED)].rstrip())
        elif resumed := RESUMED.match(text):
            begun = open_calls.pop(line.process, None)
            if begun:
                events.append(_call(begun, line.latest, begun.text + resumed[2]))
        elif not text.startswith("--- "):
            events.append(_call(line, after, text))
        seen[line.process] = line.moment
    for begun in open_calls.values():
        events.append(_call(begun, None, begun.text + ") = ?"))
    return [event for event in events if event]


def _call(line, end, text):
    found = CALL.match(text)
    if not found:
        return None
    value = None if found[3] == "?" else int(found[3], 0)
    # An exit never returns: it ends with its process.
    if found[1] in ("exit", "exit_group"):
        value, end = 0, line.moment
    return SystemCall(line.process, line.moment, end, found[1], found[2], value, found[5], line.place, found[4] or "")
