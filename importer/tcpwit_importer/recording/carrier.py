"""Carries frames between two hosts, with delays, losses, duplicates and reordering."""
import heapq
import os
import random
import select
import socket
import threading
import time

from ..capture.layers import ETHERNET, LeftOut, segment_in
from ..capture.segments import SHORTEST, size
from ..problem import Problem

ALL = 3
OUTGOING = 4
SOL_PACKET, PACKET_VNET_HDR = 263, 15
# The kernel puts a header with offload data before each frame; a frame that an offload enlarged is passed on whole.
VNET_HEADER = 10
LARGEST = 1 << 17


def raw_socket(name):
    """A socket for the frames of an interface."""
    try:
        end = socket.socket(socket.AF_PACKET, socket.SOCK_RAW, socket.htons(ALL))
        end.setsockopt(SOL_PACKET, PACKET_VNET_HDR, 1)
        end.setsockopt(socket.SOL_SOCKET, socket.SO_RCVBUF, 1 << 24)
        end.bind((name, ALL))
    except OSError as error:
        raise Problem(f"a raw socket at {name}: {error.strerror}",
                      "this needs root, and the capability NET_RAW in a container") from error
    return end


class Carrier:
    """A thread that carries frames. It loses segments at random, or the listed data segments of the client, counted
    from 1."""

    def __init__(self, between, chances):
        self.chances, self.dice = chances, random.Random(chances.seed)
        self.data, self.stopped, self.fault = 0, False, None
        self.ends = []
        with between.inside():
            for name in ("c0", "c1"):
                self.ends.append(raw_socket(name))
        self.thread = threading.Thread(target=self.carry, daemon=True)
        self.thread.start()

    def stop(self):
        """Ends the thread; frames in transit are lost."""
        self.stopped = True
        self.thread.join()
        for end in self.ends:
            end.close()

    def is_lost(self, side, frame):
        """Whether this frame is lost."""
        frame = frame[VNET_HEADER:]
        try:
            _, _, start, end, *_ = segment_in(ETHERNET, frame, len(frame))
        except LeftOut:
            return False
        segment = frame[start:end]
        if len(segment) < SHORTEST:
            return False
        if side == 0 and size(segment) > 0:
            self.data += 1
            if self.data in self.chances.lose:
                return True
        return self.dice.random() < self.chances.loss

    def carry(self):
        """The thread's loop."""
        waiting, count = [], 0
        while not self.stopped:
            now = time.monotonic()
            while waiting and waiting[0][0] <= now:
                _, _, side, frame = heapq.heappop(waiting)
                self.send(side, frame)
            pause = min(0.05, max(0, waiting[0][0] - now)) if waiting else 0.05
            for end in select.select(self.ends, [], [], pause)[0]:
                frame, address = end.recvfrom(LARGEST)
                side = self.ends.index(end)
                if address[2] == OUTGOING:
                    continue
                if self.is_lost(side, frame):
                    continue
                for _ in range(2 if self.dice.random() < self.chances.double else 1):
                    late = self.chances.delay / 1000 * (2 if self.dice.random() < self.chances.reorder else 1)
                    count += 1
                    heapq.heappush(waiting, (time.monotonic() + late, count, side, frame))

    def send(self, side, frame):
        """Forwards a frame."""
        try:
            self.ends[1 - side].send(frame)
        except OSError as error:
            self.fault = self.fault or f"a frame of {len(frame)} bytes could not be carried: {os.strerror(error.errno)}"
