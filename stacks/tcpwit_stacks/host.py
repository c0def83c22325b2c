"""A stack in a process of its own, and the lines that it may print (see the top of driver.c)."""
import os
import re
import selectors
import time

from . import processes
from .limits import Broken
from .texts import shown

SHORTEST = 20   # bytes of a TCP header without options
# The answers that a call may have, besides the words below.
GIVEN = {"listen": r"ok \d+", "open": r"ok \d+", "accept": r"ok \d+", "send": r"ok [1-9]\d*",
         "recv": r"data ([0-9a-f]{2})+", "status": r"state [A-Z0-9-]+"}
WORDS = ("again", "eof", "closed", "notconn", "refused", "reset", "timeout", "inuse")
NEXT = r"-|\d+"
EXPIRED = r"\d+ \d+ (rto|persist|2msl|giveup|pto)"
# The most bytes of a line, lines of a command, and bytes to read at once.
LONGEST_LINE, MOST_LINES, AT_ONCE = 1 << 20, 20_000, 1 << 16
# How much of standard error is shown: bytes, lines, and characters of a line.
TAIL, TAIL_LINES, TAIL_WIDTH = 4000, 8, 180
# How many seconds a process may take to end.
GRACE = 1


class Cannot(Exception):
    """The adapter can't do what the scenario requires."""


class Host:
    """A stack in a process of its own."""

    def __init__(self, number, command, settings, watch):
        self.number, self.settings, self.watch = number, settings, watch
        self.process = processes.start(command)
        self.next = None
        self.said = self.errors = self.pending = b""
        self.closed = self.failed = False
        self.selector = selectors.DefaultSelector()
        for pipe in (self.process.stdin, self.process.stdout, self.process.stderr):
            os.set_blocking(pipe.fileno(), False)
        self.selector.register(self.process.stdout, selectors.EVENT_READ, self.read)
        self.selector.register(self.process.stderr, selectors.EVENT_READ, self.read_errors)

    def hello(self, seed, options):
        """Starts the stack."""
        number, settings = self.number, self.settings
        mss, window = settings.get((number, "mss"), 536), settings.get((number, "window"), 0)
        self.ask("start", f"start {number} {seed} {mss} {window} {options}")
        if (number, "iss") in settings:
            self.ask("iss", f"0 iss {settings[number, 'iss']}")

    # ---- the pipes ----

    def move(self, seconds):
        """Reads and writes as much as possible, after waiting at most this long. Returns whether it read or wrote
        anything."""
        found = self.selector.select(max(0, seconds))
        for key, _ in found:
            key.data()
        return bool(found)

    def has(self, pipe):
        """Whether a pipe is among those that are waited for."""
        return pipe in [key.fileobj for key in self.selector.get_map().values()]

    def write(self):
        try:
            self.pending = self.pending[os.write(self.process.stdin.fileno(), self.pending[:AT_ONCE]):]
        except BrokenPipeError:
            self.pending = b""
        if not self.pending:
            self.selector.unregister(self.process.stdin)

    def read(self):
        more = os.read(self.process.stdout.fileno(), AT_ONCE)
        self.said += more
        if not more:
            self.closed = True
            self.selector.unregister(self.process.stdout)

    def read_errors(self):
        more = os.read(self.process.stderr.fileno(), AT_ONCE)
        self.errors = (self.errors + more)[-TAIL:]
        if not more:
            self.selector.unregister(self.process.stderr)

    def tail(self):
        """The last lines of standard error."""
        lines = [shown(line)[:TAIL_WIDTH] for line in self.errors.split(b"\n") if line.strip()]
        return [f"host {self.number}, standard error: {line}" for line in lines[-TAIL_LINES:]]

    def broken(self, cause, command):
        """The exception for a fault of the process."""
        self.failed = True
        until = time.monotonic() + GRACE / 4
        while time.monotonic() < until and self.has(self.process.stderr):
            self.move(until - time.monotonic())
        return Broken(f"host {self.number} {cause}, to: {command[:60].rstrip()}")

    # ---- commands ----

    def ask(self, word, command):
        """Sends a command, whose call is `word`. Returns the answer and the events: ('out', hex) and
        ('expired', ports and timer)."""
        seconds = min(self.watch.limits.command, self.watch.left(f"before: {command[:60]}"))
        until = time.monotonic() + seconds
        self.pending = (command + "\n").encode()
        self.selector.register(self.process.stdin, selectors.EVENT_WRITE, self.write)
        happened = []
        while len(happened) < MOST_LINES:
            line = self.line(until, command)
            first, _, rest = line.partition(" ")
            if first == "=":
                return self.answer(word, command, line), happened
            fault = fault_of(first, rest)
            if fault:
                raise self.broken(f"{fault}: '{line[:60]}'", command)
            happened.append((first, rest))
        raise self.broken(f"printed {MOST_LINES} lines without an answer", command)

    def line(self, until, command):
        """The next line that the process prints, until this moment."""
        while b"\n" not in self.said:
            if len(self.said) > LONGEST_LINE:
                raise self.broken(f"printed a line of more than {LONGEST_LINE} bytes", command)
            if self.closed:
                cause = processes.status_within(self.process, GRACE) or "closed its output"
                raise self.broken(f"{cause} after '{shown(self.said[-60:])}'" if self.said else cause, command)
            if time.monotonic() >= until or not self.move(until - time.monotonic()):
                self.watch.left(f"during host {self.number}'s command: {command[:60].rstrip()}")
                raise self.broken(processes.status(self.process)
                                  or f"printed nothing for {self.watch.limits.command:g} s", command)
        line, _, self.said = self.said.partition(b"\n")
        return shown(line.decode("ascii", "backslashreplace"))

    def answer(self, word, command, line):
        """The answer in the line `= NEXT ANSWER`; records when the next tick is due."""
        _, wanted, answer = (line + "  ").split(" ", 2)
        answer = answer.rstrip(" ")
        if answer == "cannot":
            raise Cannot(f"{word} at host {self.number}")
        if not re.fullmatch(NEXT, wanted) or not is_answer(word, answer):
            raise self.broken(f"gave an invalid answer: '{line[:60]}'", command)
        if self.pending:
            raise self.broken(f"answered before it read the command: '{line[:60]}'", command)
        self.next = None if wanted == "-" else int(wanted)
        return answer

    def end(self):
        """Closes the input, and ends the process if it doesn't end soon; after a fault, ends it at once."""
        if self.has(self.process.stdin):
            self.selector.unregister(self.process.stdin)
        self.process.stdin.close()
        until = time.monotonic() + (0 if self.failed else GRACE)
        while not processes.status(self.process) and time.monotonic() < until:
            if self.selector.get_map():
                self.move(processes.PAUSE)
            else:
                time.sleep(processes.PAUSE)
        self.selector.close()
        processes.end(self.process)


def is_answer(word, answer):
    """Whether a call may have this answer."""
    if word in ("start", "iss", "in", "tick"):
        return answer == "ok"
    return answer in WORDS or bool(re.fullmatch(GIVEN.get(word, "ok"), answer))


def fault_of(word, rest):
    """What is wrong with a line that isn't an answer; empty if nothing is."""
    if word == "expired":
        return "" if re.fullmatch(EXPIRED, rest) else "printed a timer that isn't LOCAL REMOTE TIMER"
    if word != "out":
        return "printed an unknown line"
    if not re.fullmatch("[0-9a-f]*", rest) or len(rest) % 2:
        return "sent bytes that aren't two lowercase hex digits each"
    size, header = len(rest) // 2, int(rest[24:25] or "0", 16) * 4
    if size < SHORTEST:
        return f"sent {size} bytes, fewer than a TCP header has"
    return "" if SHORTEST <= header <= size else f"sent {size} bytes with a header length of {header}"
