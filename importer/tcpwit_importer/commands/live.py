"""Judges connections while they are captured: each one when it has ended.

A connection has ended when both FINs were acknowledged, or at a reset. It's judged once it was silent for a while,
since late segments belong to it, too. Its packets are kept until then. If they need too much memory, a connection is
judged as far as it was captured.
"""
import io
import multiprocessing
import queue
import signal
import sys
import threading
import time
from collections import OrderedDict
from concurrent.futures import FIRST_COMPLETED, ProcessPoolExecutor, wait
from concurrent.futures.process import BrokenProcessPool
from copy import copy
from itertools import islice

from ..capture.connections import Connection, begun_by, continues
from ..capture.packets import packets_of
from ..capture.segments import ACK, FIN, RST, WRAP
from ..capture.signs import Signs
from ..problem import Problem
from ..remedies import LESS_AT_ONCE
from . import workers

# What a packet needs besides its bytes, and a connection besides its packets.
PACKET, CONNECTION = 400, 3000
# Of how many connections packets may only be counted, if memory is needed.
COUNTED = 1000
# How many packets are read ahead, and for how many seconds the next one is awaited.
AHEAD, PATIENCE = 10_000, 0.5
SECOND = 10**9
# The reader's last message.
END = None


class Live(Connection):
    """A connection whose packets arrive. `last` is the moment of the last one, `bytes` what it needs of memory; `own`
    has the ends whose packets the capture marked as sent, `signs` shows where it was made, and `place` has what was
    decided about that."""

    def __init__(self, client, server, begun):
        super().__init__(client, server, begun)
        self.count, self.last, self.bytes, self.ended, self.is_part = 0, begun, CONNECTION, False, False
        self.own, self.fins, self.closed, self.fragmented = {}, {}, set(), False
        self.signs, self.place = Signs(), None

    def add(self, capture, packet):
        """Adds the next packet. What follows a part that was judged is only counted. All packets share the ends."""
        packet.source, packet.target = self.ends_of(packet)
        self.count += 1
        self.last = max(self.last, packet.moment)
        self.note_end(packet)
        self.signs.add(packet, packet.source is self.client)
        if not self.is_part:
            super().add(capture, packet)
            self.bytes += len(packet.segment) + PACKET
            if packet.outgoing is not None:
                self.own.setdefault(capture, set()).add(packet.source if packet.outgoing else packet.target)

    def note_end(self, packet):
        """Notes whether the connection has ended."""
        if packet.flags & FIN:
            self.fins[packet.source] = packet.number + packet.size + 1
        fin = self.fins.get(packet.target)
        if packet.flags & ACK and fin is not None and (packet.acknowledgment - fin) % WRAP < WRAP // 2:
            self.closed.add(packet.target)
        self.ended = self.ended or bool(packet.flags & RST) or len(self.closed) == 2

    @property
    def places(self):
        """The captures that have it."""
        return self.seen

    def read(self, *_):
        """The connection with its packets."""
        return self


class Stream:
    """The connections of a capture that goes on. `judge` is called with each connection to be judged and the moment up
    to which it was watched."""

    def __init__(self, capture, judge, idle, memory):
        self.capture, self.judge, self.idle, self.memory = capture, judge, idle, memory
        # The connections by their ends, those that were silent longest first.
        self.current, self.bytes, self.now = OrderedDict(), 0, 0

    def add(self, packet):
        """The next packet."""
        self.now = max(self.now, packet.moment)
        pair = frozenset((packet.source, packet.target))
        connection = self.current.get(pair)
        if not continues(connection, packet):
            if connection:
                self.end(pair)
            connection = self.current[pair] = begun_by(packet, Live)
            self.bytes += connection.bytes
        before = connection.bytes
        connection.add(self.capture.name, packet)
        self.bytes += connection.bytes - before
        self.current.move_to_end(pair)
        if connection.bytes * 2 > self.memory and not connection.is_part:
            self.judge_part(connection)
        while self.bytes > self.memory and len(self.current) > 1:
            self.need_less(connection)

    def need_less(self, latest):
        """Judges the connection, except the latest, that was silent longest: if it hasn't ended, as far as it was
        captured. If there's none, one of which packets are only counted is forgotten."""
        for pair, connection in islice(self.current.items(), COUNTED):
            if connection is not latest and connection.bytes > CONNECTION:
                if connection.ended:
                    self.end(pair)
                else:
                    self.judge_part(connection)
                return
        self.end(next(iter(self.current)))

    def judge_part(self, connection):
        """Judges what was captured of a connection. What follows is only counted."""
        connection.is_part = True
        self.judge(copy(connection), self.now)
        self.bytes -= connection.bytes - CONNECTION
        connection.bytes, connection.seen = CONNECTION, {}

    def end(self, pair):
        """A connection is complete."""
        connection = self.current.pop(pair)
        self.bytes -= connection.bytes
        if not connection.is_part:
            self.judge(connection, self.now)

    def pass_time(self, now):
        """Judges the connections that have ended and were silent since."""
        self.now = max(self.now, now)
        for pair in [pair for pair, connection in self.silent() if connection.ended]:
            self.end(pair)

    def silent(self):
        """The connections that were silent for long enough."""
        for pair, connection in self.current.items():
            if self.now - connection.last < self.idle:
                return
            yield pair, connection

    def finish(self):
        """The capture has ended."""
        while self.current:
            self.end(next(iter(self.current)))


def standard_input():
    """Standard input apart from Python's own object: when Python ends, it closes that, for which it would await a
    thread that reads it."""
    own = sys.stdin.buffer
    return io.BufferedReader(own.raw) if isinstance(own, io.BufferedReader) else own


class Reader(threading.Thread):
    """Reads the packets of a stream, so that its program needn't wait while connections are judged."""

    def __init__(self, capture, file, notes):
        super().__init__(daemon=True)
        self.capture, self.file, self.notes, self.found, self.error = capture, file, notes, queue.Queue(AHEAD), None

    def run(self):
        try:
            for packet in packets_of(self.capture.name, self.file, self.notes, self.capture.layout, lenient=True):
                self.found.put(packet)
        except BaseException as error:
            self.error = error
        self.found.put(END)


class Pool:
    """Judges connections in other processes, and hands each result to the output as soon as it is there. `places`
    decides where the capture of each was made, unless the user says it."""

    def __init__(self, judges, jobs, output, notes, places=None):
        self.judges, self.jobs, self.output, self.notes, self.places = judges, jobs, output, notes, places
        self.number, self.waiting = 0, set()
        self.pool = ProcessPoolExecutor(jobs, multiprocessing.get_context("fork"), initializer=begin)
        # The processes begin before there is a thread.
        wait([self.pool.submit(int) for _ in range(jobs)])

    def judge(self, connection, moment):
        """Has a connection judged. Waits if enough others are waiting."""
        if self.places:
            self.places.decide([connection])
        self.number += 1
        connection.fragmented = self.judges.is_fragmented(connection)
        self.waiting.add(self.pool.submit(workers.ending, self.judges.result, self.number, connection,
                                         moment))
        while len(self.waiting) > 2 * self.jobs:
            self.collect(None)

    def collect(self, seconds):
        """Prints results that are there within this time; None: at least one."""
        done, self.waiting = wait(self.waiting, seconds, FIRST_COMPLETED)
        try:
            for each in done:
                result = each.result()
                self.output.add(result)
                self.notes.add(result.notes)
        except BrokenProcessPool as error:
            raise Problem("a process that judges connections was ended", LESS_AT_ONCE) from error

    def finish(self):
        """Prints the results of all connections."""
        while self.waiting:
            self.collect(None)

    def close(self):
        """Ends the processes."""
        self.pool.shutdown(cancel_futures=True)


def begin():
    """A worker process goes on after Ctrl-C, which ends the capture."""
    workers.begin()
    signal.signal(signal.SIGINT, signal.SIG_IGN)


def watch(reader, stream, pool):
    """Judges the connections of a capture until it ends."""
    last, heard, passed = 0, time.monotonic(), 0
    reader.start()
    while True:
        try:
            packet = reader.found.get(timeout=PATIENCE)
            if packet is END:
                break
            last, heard = max(last, packet.moment), time.monotonic()
            stream.add(packet)
        except queue.Empty:
            pool.collect(0)
        now = last + int((time.monotonic() - heard) * 10**9)
        if last and now - passed >= SECOND:
            passed = now
            stream.pass_time(now)
            pool.collect(0)
    stream.finish()
    pool.finish()
