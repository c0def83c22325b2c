"""Judges connections in parallel processes, which read the captures themselves."""
import contextlib
import ctypes
import gc
import multiprocessing
import os
import signal
from collections import deque
from concurrent.futures import ProcessPoolExecutor
from concurrent.futures.process import BrokenProcessPool
from itertools import islice
from multiprocessing.util import Finalize

from ..problem import Problem, Terminated
from ..progress import Part
from ..remedies import LESS_AT_ONCE
from . import standing

# The option of prctl(2) for the signal that a process gets when its parent ends.
PARENT_DEATH = 1
# A process judges a group of connections before it's given the next: at most so many with so many packets. Of a
# process, so many groups may have results that wait for earlier ones.
TOGETHER, PACKETS, AHEAD = 32, 1000, 50
# Into how many groups connections are divided at least, for each process.
LEAST = 8
# What a worker process inherits: the judge and the connections.
shared = []


class Results:
    """Judges connections, at most `jobs` at once. `done` is how many were judged, some of which may wait for an earlier
    one."""

    def __init__(self, judges, connections, jobs):
        self.judges, self.connections, self.jobs = judges, connections, min(jobs, len(connections))
        self.done = 0

    def in_order(self):
        """The result of each connection."""
        if self.jobs > 1:
            yield from self.of_processes()
            return
        for number, connection in enumerate(self.connections, 1):
            result = self.judges.result(number, connection)
            self.done = number
            yield result

    def of_processes(self):
        """The results of parallel processes."""
        shared[:] = self.judges, self.connections
        # What is there already isn't garbage, so no process needs to look at it.
        gc.freeze()
        pool = ProcessPoolExecutor(self.jobs, multiprocessing.get_context("fork"), initializer=begin)
        groups, waiting = self.groups(), deque()
        try:
            waiting.extend(self.submitted(pool, group) for group in islice(groups, AHEAD * self.jobs))
            while waiting:
                yield from waiting.popleft().result()
                waiting.extend(self.submitted(pool, group) for group in islice(groups, 1))
        except BrokenProcessPool as error:
            raise Problem("a process that judges connections was ended", LESS_AT_ONCE) from error
        finally:
            pool.shutdown(cancel_futures=True)
            gc.unfreeze()

    def groups(self):
        """The places of connections that are judged together."""
        most = max(1, min(TOGETHER, len(self.connections) // (LEAST * self.jobs)))
        first = packets = 0
        for place, connection in enumerate(self.connections):
            if place - first == most or packets >= PACKETS:
                yield range(first, place)
                first, packets = place, 0
            packets += connection.count
        yield range(first, len(self.connections))

    def submitted(self, pool, group):
        """The future results of a group."""
        def count(_):
            self.done += len(group)
        future = pool.submit(ending, results_of, group)
        future.add_done_callback(count)
        return future


def begin():
    """A worker process shows no progress, as the others work at the same time, and ends if the command is killed. Its
    programs end with it."""
    Part.command = None
    Finalize(None, standing.end_all, exitpriority=1)
    signal.signal(signal.SIGTERM, signal.SIG_DFL)
    if prctl := getattr(ctypes.CDLL(None), "prctl", None):
        prctl(PARENT_DEATH, signal.SIGKILL)


def results_of(places):
    """The results of the connections at these places, in a worker process."""
    judges, connections = shared
    return [judges.result(place + 1, connections[place]) for place in places]


def ending(judge, *words):
    """What a judge returns in a worker process. After SIGTERM, its own processes and files are gone when it ends."""
    signal.signal(signal.SIGTERM, terminate)
    try:
        return judge(*words)
    except Terminated:
        os._exit(128 + signal.SIGTERM)
    finally:
        signal.signal(signal.SIGTERM, signal.SIG_DFL)


def terminate(*_):
    """Handles SIGTERM: the processes that judge get it, too, and what is left is cleaned up."""
    signal.signal(signal.SIGTERM, signal.SIG_IGN)
    for process in multiprocessing.active_children():
        process.terminate()
    raise Terminated


@contextlib.contextmanager
def terminating():
    """Handles SIGTERM meanwhile."""
    kept = signal.signal(signal.SIGTERM, terminate)
    try:
        yield
    finally:
        signal.signal(signal.SIGTERM, kept)
