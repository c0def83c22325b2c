"""The processes that a run starts, each in a group of its own so that none is left over.

Processes that leave their group are found too: once their parent has ended, they become children of the runner, and
their environment has a mark.
"""
import contextlib
import ctypes
import glob
import itertools
import os
import signal
import subprocess
import threading
import time

PAUSE = 0.002   # seconds between two checks whether a process has ended
# The variable that marks a process and what it starts: NUMBER:COUNT: with the runner's number and a count.
MARK = "TCPWIT_RUN_PROCESS"
COUNTS = itertools.count()
# From <linux/prctl.h>.
PR_SET_CHILD_SUBREAPER = 36
# How often leftover processes are ended, in case they start more in the meantime.
MOST_ROUNDS = 1000


class Stopped(Exception):
    """The run is ending, so no more processes are started."""


LOCK = threading.Lock()
RUNNING = set()
STOPPED = threading.Event()


def adopt():
    """Makes each orphan of the run a child of this process from now on. Returns the children it already has."""
    ctypes.CDLL(None).prctl(PR_SET_CHILD_SUBREAPER, 1, 0, 0, 0)
    return children()


def start(command):
    """Starts a program whose input and outputs are pipes."""
    with LOCK:
        if STOPPED.is_set():
            raise Stopped()
        mark = f"{os.getpid()}:{next(COUNTS)}:"
        process = subprocess.Popen(command, stdin=subprocess.PIPE, stdout=subprocess.PIPE, stderr=subprocess.PIPE,
                                   bufsize=0, start_new_session=True, env={**os.environ, MARK: mark})
        process.mark = mark
        RUNNING.add(process)
        return process


def parent(number):
    """The number of a process's parent; None if the process is gone."""
    with contextlib.suppress(OSError), open(f"/proc/{number}/stat", "rb") as file:
        return int(file.read().rpartition(b")")[2].split()[1])


def children():
    """The numbers of this process's children."""
    own = os.getpid()
    return {int(name) for name in os.listdir("/proc") if name.isdigit() and parent(name) == own}


def listed_children():
    """The same from the system's own list. This is fast, but the list can lack one while another ends."""
    found = set()
    for path in glob.glob("/proc/self/task/*/children"):
        with contextlib.suppress(OSError), open(path) as file:
            found |= set(map(int, file.read().split()))
    return found


def has_mark(number, mark):
    """Whether a process has a mark with this beginning."""
    with contextlib.suppress(OSError), open(f"/proc/{number}/environ", "rb") as file:
        return any(each.startswith(f"{MARK}={mark}".encode()) for each in file.read().split(b"\0"))
    return False


def end_left(find, is_left):
    """Ends leftover processes among the children that `find` returns, until none are left, except those of other
    users."""
    spared = set()
    for _ in range(MOST_ROUNDS):
        found = {number for number in find() - spared if is_left(number)}
        if not found:
            return
        for number in found:
            try:
                os.kill(number, signal.SIGKILL)
                os.waitpid(number, 0)
            except OSError:
                spared.add(number)


def status(process):
    """How a process ended; empty while it runs. The process keeps its number until `end`."""
    found = os.waitid(os.P_PID, process.pid, os.WEXITED | os.WNOWAIT | os.WNOHANG)
    if found is None:
        return ""
    if found.si_code == os.CLD_EXITED:
        return f"ended with status {found.si_status}"
    names = {each.value: each.name for each in signal.Signals}
    return f"was ended by the signal {names.get(found.si_status, found.si_status)}"


def status_within(process, seconds):
    """The same, after waiting at most this long."""
    until = time.monotonic() + seconds
    while not status(process) and time.monotonic() < until:
        time.sleep(PAUSE)
    return status(process)


def kill(process):
    """Ends a process and its group, unless its number is already free."""
    if process.returncode is not None:
        return
    with contextlib.suppress(ProcessLookupError):
        os.killpg(process.pid, signal.SIGKILL)


def end(process):
    """Ends a process and those it started, and frees its number and pipes. Processes without the mark are left to
    `end_orphans`."""
    with LOCK:
        RUNNING.discard(process)
        kill(process)
    process.wait()
    for pipe in (process.stdin, process.stdout, process.stderr):
        pipe.close()
    end_left(listed_children, lambda number: has_mark(number, process.mark))


def end_orphans(before):
    """Ends what the run left. `before`: children that this process already had; if it had any, only marked processes
    belong to the run."""
    end_left(children, lambda number: not before or has_mark(number, f"{os.getpid()}:"))


def end_all():
    """Ends all running processes; none are started from now on."""
    with LOCK:
        STOPPED.set()
        for process in RUNNING:
            kill(process)


def call(command, text, seconds):
    """A program's output and status; None for both if it took too long."""
    process = start(command)
    try:
        told, _ = process.communicate(text.encode(), max(0, seconds))
        return told.decode(errors="backslashreplace"), process.returncode
    except subprocess.TimeoutExpired:
        return None, None
    finally:
        end(process)
