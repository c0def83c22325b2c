"""Errors that end a run, notes on what a trace leaves out, and how both are printed."""
import argparse
import errno
import os
import signal
import subprocess
import sys
import traceback


class Terminated(BaseException):
    """SIGTERM came."""


class Problem(Exception):
    """An error of the input: its cause, and what to do about it. `recorded` is the remedy if tcpwit-record made the
    files, whose options differ."""

    def __init__(self, cause, remedy, recorded=None):
        super().__init__(cause)
        self.cause, self.remedy, self.recorded = cause, remedy, recorded

    def of_recorder(self):
        """The same problem with the recorder's remedy."""
        return Problem(self.cause, self.recorded or self.remedy)

    def __str__(self):
        return f"{self.cause}\n  {self.remedy}"


def decoded(data):
    """A program's output as text; `plain` escapes bytes that aren't UTF-8."""
    return data.decode(errors="surrogateescape")


def one_line(data):
    """A program's output as one line."""
    return "; ".join(line.strip() for line in decoded(data).splitlines() if line.strip())


def plain(text):
    """A text with everything escaped that could control a terminal: control characters as `\\x1b`, bytes that aren't
    UTF-8 as `\\xff`."""
    if text.isprintable():
        return text
    return "".join(letter if letter.isprintable() else escaped(ord(letter)) for letter in text)


def escaped(code):
    """The escape of a character. Python reads a byte that isn't UTF-8 as a character from U+DC80 to U+DCFF."""
    code -= 0xDC00 if 0xDC80 <= code <= 0xDCFF else 0
    return f"\\x{code:02x}" if code < 0x100 else f"\\u{code:04x}" if code < 0x10000 else f"\\U{code:08x}"


def say(command, *lines):
    """Prints a command's message on standard error: a line, and indented lines that belong to it."""
    print(f"{command}: " + "\n  ".join(map(plain, lines)), file=sys.stderr)


class Parser(argparse.ArgumentParser):
    """The options of a command; errors quote arguments escaped."""

    def error(self, message):
        super().error(plain(message))


def named_file(text):
    """An argparse type: a file, a folder or a program."""
    if not text:
        raise argparse.ArgumentTypeError("the name is empty")
    return text


def not_run(name):
    """Why the system can't run the program at this path; None if it can."""
    if os.path.isfile(name) and os.access(name, os.X_OK):
        return None
    return os.strerror(errno.EISDIR if os.path.isdir(name) else errno.EACCES if os.path.exists(name) else errno.ENOENT)


def status_of(command, act):
    """The status that `act` returns. If `act` fails, prints the cause and a remedy on standard error and returns the
    status of the failure."""
    try:
        if sys.stdout is None:
            raise Problem("standard output is closed", "leave it open, or redirect it to a file")
        return act()
    except Problem as problem:
        say(command, problem.cause, problem.remedy)
    except BrokenPipeError:
        # The reader of the pipe is gone. At exit, Python flushes what is left and would fail again.
        os.dup2(os.open(os.devnull, os.O_WRONLY), 1)
    except OSError as error:
        say(command, f"{error.filename or 'standard output'}: {error.strerror}",
            "choose a place that can be read and written")
    except subprocess.SubprocessError as error:
        say(command, str(error), "check whether the programs can be run")
    except KeyboardInterrupt:
        return 130
    except Terminated:
        return 128 + signal.SIGTERM
    except Exception as error:
        # Python's own status would be 1, the status of a no.
        say(command, f"{type(error).__name__}: {error} ({place_of(error)})",
            f"this is a bug in {command}: report it with the command and its files")
    return 2



def counted(count, what):
    """A count with its noun."""
    return f"{count} {what}" if count == 1 else f"{count} {what}s"


def place_of(error):
    """The line of the program that raised an error."""
    last = traceback.extract_tb(error.__traceback__)[-1]
    return f"{os.path.basename(last.filename)}, line {last.lineno}"


class Notes:
    """What was left out, changed or kept: each kind with its count and the first place."""

    def __init__(self):
        self.left_out = {}
        self.changed = {}
        self.kept = {}
        self.said = []

    def leave_out(self, kind, place):
        """Counts something that is missing from the trace."""
        self._count(self.left_out, kind, place)

    def change(self, kind, place):
        """Counts something that the trace has in another form."""
        self._count(self.changed, kind, place)

    def keep(self, kind, place):
        """Counts something that the trace has as it was captured."""
        self._count(self.kept, kind, place)

    def say(self, text):
        """A line of its own."""
        self.said.append(text)

    def add(self, other):
        """Adds the counts of other notes. The first place of each kind is the one that was noted first."""
        for kinds, more in ((self.left_out, other.left_out), (self.changed, other.changed), (self.kept, other.kept)):
            for kind, (count, place) in more.items():
                before, first = kinds.get(kind, (0, place))
                kinds[kind] = (before + count, first)

    @staticmethod
    def _count(kinds, kind, place):
        count, first = kinds.get(kind, (0, place))
        kinds[kind] = (count + 1, first)

    def lines(self):
        """The lines to print on standard error."""
        yield from self.said
        for title, kinds in (("changed", self.changed), ("kept", self.kept), ("left out", self.left_out)):
            for kind, (count, first) in kinds.items():
                yield f"{title}: {count} {kind} (first: {first})"
