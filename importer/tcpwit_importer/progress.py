"""Shows on standard error which part of the work takes long.

A part that takes two seconds is shown: on a terminal as a line that is updated, with the share that is done or the
time, and removed at the end; elsewhere as a line that is printed once.
"""
import os
import sys
import threading
import time

from .problem import plain

# Seconds after which a part is shown, and between two updates.
PATIENCE, PACE = 2, 0.5
REMOVED = "\r\033[K"
# The columns of most terminals.
USUAL = 80


class Part:
    """A part of the work, to be used with `with`. `position` returns how much of `size` is done, and is called by
    another thread. What is counted may have a name, such as `connection`."""
    # A command that shows its parts sets this to its name.
    command = None

    def __init__(self, what, size=None, position=None, beside_programs=False, counted=""):
        self.what, self.size, self.position = plain(what), size, position
        self.counted = f"{size:,} {counted}{'' if size == 1 else 's'}" if counted else ""
        # Programs that print on the same terminal would disturb a line that is updated.
        self.once = beside_programs
        self.began, self.ended = time.monotonic(), threading.Event()
        self.thread = threading.Thread(target=self.show, daemon=True) if self.command and sys.stderr else None

    def __enter__(self):
        if self.thread:
            self.thread.start()
        return self

    def __exit__(self, *_):
        if self.thread:
            self.ended.set()
            self.thread.join()

    def show(self):
        """The thread that shows the part until it ends."""
        if self.ended.wait(PATIENCE):
            return
        if self.once or not sys.stderr.isatty():
            print(f"{self.command}: {self.what} {self.counted}".rstrip(), file=sys.stderr, flush=True)
            return
        while not self.ended.is_set():
            print(REMOVED + self.line()[:width_of(sys.stderr) - 1], end="", file=sys.stderr, flush=True)
            self.ended.wait(PACE)
        print(REMOVED, end="", file=sys.stderr, flush=True)

    def line(self):
        """The line of a terminal."""
        state = f"{time.monotonic() - self.began:.0f} s"
        if self.counted:
            state = f"{self.position():,} of {self.counted}"
        elif self.size:
            state = f"{min(100, self.position() * 100 // self.size)} %"
        return f"{self.command}: {self.what}: {state}"


def of_file(what, file):
    """A part that reads a file in this process or, by the same descriptor, in another. A pipe has no size."""
    return Part(what, os.fstat(file.fileno()).st_size, lambda: os.lseek(file.fileno(), 0, os.SEEK_CUR))


def width_of(terminal):
    """The columns of a terminal. One that doesn't know them says 0."""
    try:
        return os.get_terminal_size(terminal.fileno()).columns or USUAL
    except OSError:
        return USUAL
