#!/usr/bin/env python3
"""Writes a hostile case of a given kind and size to standard output.

    python3 bench/hostile_cases.py KIND SIZE

Each kind has a large number of one thing that a check must remember or search for: pieces out of order, waiting copies,
threads, timeouts and so on (the functions marked `kind` below). From size 3 on, each case is valid, so the checker does
all its steps and the verdict is `yes`. The only exception is the kind with lines that are never placed: it ends with
`no 0 8 unplaced`, after the last step. `verdict_of` returns the expected line.

`find_kind` marks the kinds for `tcpwit_lab find`, which reads such a case up to the line `witness 2`. The case that
`find` prints must have the same verdict.

The texts have format version 2: both hosts send a shift of 14 and an MSS of 65495, so that a million bytes may be
outstanding. The kinds whose names begin with `watched` have format version 5, with a slack: duties are judged, also at
the end. The slack is so long that none is late. Those whose names begin with `stricter` have version 6.

So do those that begin with `selective` or `plain`, whose subject is data in flight: there both SYNs permit SACK, or
neither does. Most are half cases, in which host 0 sends and its peer chooses every acknowledgment.

The kinds whose names begin with `stamped` have version 6, too. Each of their segments has timestamps (RFC 7323).
"""

import math
import random
import struct
import sys

from colliding_threads import colliding

HEADER = ["trace 2", "skew 0", "msl 3600000000", "grain 1000", "minrto 1000000", "extra 65535", "initial 6928"]
FIRST_EVENT_LINE = 1 + len(HEADER)
WATCHED_HEADER = ["trace 5", *HEADER[1:], "hosts 2", "congestion full", "slack 1000000000000"]
STRICT_HEADER = ["trace 6", *WATCHED_HEADER[1:-2], "congestion recovery", WATCHED_HEADER[-1], "sender reno", "growth 1"]
# A segment that is never sent isn't late after any number of timeouts, because the slack is the longest.
FLIGHT_HEADER = ["trace 6", *HEADER[1:], "hosts 1", "congestion recovery", f"slack {10**18}", *STRICT_HEADER[-2:]]
MSS = 65_495
SHIFT = 14
WINDOW = 65_535
# The first values of all clocks, so that they soon go round, and where a segment shows its clock, in hex digits.
FIRST_CLOCK = 2**32 - 4
CLOCK = slice(48, 56)
# Two segments, the initial congestion window if they are long (RFC 6928, 2).
INITIAL_WINDOW = 2 * MSS
# The retransmission timeout before a round trip is measured, and its maximum, in microseconds.
FIRST_TIMEOUT = 1_000_000
LAST_TIMEOUT = 60_000_000
MOST_BYTES = 65_535
LAST_PORT = 65_535
FLAG_BITS = {"S": 0x02, "A": 0x10, "AS": 0x12, "AF": 0x11, "R": 0x04, "AR": 0x14}
# The thread at each host that records segments sent, segments received, and timers.
WIRES = (3, 4)
TIMERS = (9, 10)
CALLERS = (2, 1)

KINDS = {}
FIND_KINDS = {}


def kind(*sizes, among=KINDS):
    """Marks a function that makes a case of a size, with the three sizes at which it is timed."""

    def marked(function):
        among[function.__name__.replace("_", " ")] = (function, sizes)
        return function

    return marked


def find_kind(*sizes):
    """Marks a function that makes a case for `find`, which gets its trace."""
    return kind(*sizes, among=FIND_KINDS)


class Connection:
    """The ports of both ends, by host, their initial send sequence numbers, whether SYNs permit SACK, their MSS, and
    whether segments have timestamps."""

    def __init__(self, ports=(4000, 80), firsts=(4_294_967_294, 100), selective=False, mss=MSS, stamped=False):
        self.ports = ports
        self.firsts = firsts
        self.selective = selective
        self.mss = mss
        self.stamped = stamped
        # By host: its clock, and the clock that it echoes.
        self.clocks = [FIRST_CLOCK, FIRST_CLOCK]
        self.echoes = [0, 0]

    def stamps(self, host):
        """The timestamps of a host's next segment in hex, if it has any. They are its first option."""
        if not self.stamped:
            return ""
        self.clocks[host] = (self.clocks[host] + 1) % 2**32
        return f"0101080a{self.clocks[host]:08x}{self.echoes[host]:08x}"

    def takes(self, host, text):
        """From now on, the host echoes the clock of this segment."""
        if self.stamped:
            self.echoes[host] = int(text[CLOCK], 16)

    def options(self, host, flags, blocks):
        """The other options of a segment in hex. Its blocks are pairs of positions of the other host."""
        if "S" in flags:
            return f"0204{self.mss:04x}01{0x0303:04x}{SHIFT:02x}" + ("01010402" if self.selective else "")
        if not blocks:
            return ""
        numbers = [(self.firsts[1 - host] + position) % 2**32 for block in blocks for position in block]
        return f"010105{2 + 4 * len(numbers):02x}" + "".join(f"{number:08x}" for number in numbers)

    def text(self, host, position, flags, acked, payload=b"", window=WINDOW, blocks=()):
        """A segment in hex."""
        other = 1 - host
        number = (self.firsts[host] + position) % 2**32
        acknowledgment = 0 if acked is None else (self.firsts[other] + acked) % 2**32
        options = self.stamps(host) + self.options(host, flags, blocks)
        offset = 5 + len(options) // 8
        return (
            f"{self.ports[host]:04x}{self.ports[other]:04x}{number:08x}{acknowledgment:08x}"
            f"{offset:x}0{FLAG_BITS[flags]:02x}{window:04x}00000000{options}{payload.hex()}"
        )


class Case:
    """The event lines and steps so far, the moment of the last one, and the numbers of segments made and sockets
    assigned."""

    def __init__(self, skew=0, header=HEADER):
        self.header = [f"skew {skew}" if line.startswith("skew") else line for line in header]
        self.moment = 0
        self.events = []
        self.steps = []
        self.made = 0
        self.socket = 4
        # In version 6, a round trip that is due has to be measured.
        self.due = int(self.header[0] == "trace 6")

    def line(self, thread, what):
        """Adds an event line without its step. Returns its number."""
        self.moment += 1
        self.events.append(f"{self.moment} {thread} {what}")
        return len(self.header) + len(self.events)

    def step(self, what):
        self.steps.append(f"{self.moment} {what}")

    def event(self, thread, what, extra=""):
        """Adds an event line and its step. Returns its number."""
        number = self.line(thread, what)
        self.step(f"L {number}{extra}")
        return number

    def call(self, thread, call, answer):
        """Adds a call that has its effect at once."""
        self.event(thread, f"B {call}")
        self.step(f"D {thread} {answer}")
        self.event(thread, f"E {answer}")

    def given(self, thread, call):
        """Adds a call that returns a new socket number. Returns that number."""
        self.socket += 1
        self.call(thread, call, f"ok {self.socket}")
        return self.socket

    def make(self, connection, host, position, size, flags, window=WINDOW):
        """Makes a segment. Returns its number."""
        ports = connection.ports[host], connection.ports[1 - host]
        first = f" {connection.firsts[host]} {SHIFT}" if "S" in flags else ""
        self.step(f"M {host} {ports[0]} {ports[1]} {position} {size} {flags} {window}{first}")
        self.made += 1
        return self.made

    def make_again(self, connection, host, position, size, flags):
        """Makes a segment whose SYN, if any, was sent before. Returns its number."""
        ports = connection.ports[host], connection.ports[1 - host]
        self.step(f"M {host} {ports[0]} {ports[1]} {position} {size} {flags} {WINDOW}")
        self.made += 1
        return self.made

    def goes(self, host, text, made):
        """Sends a made segment. Returns the number of its line."""
        return self.event(WIRES[host], f"O {host} {text}", f" {made}")

    def comes(self, host, text, out):
        """Delivers a copy to the host. Returns the number of its line."""
        return self.event(WIRES[host], f"I {host} {text}", f" {out}")

    def carry(self, connection, host, position, flags, acked, payload=b"", window=WINDOW, blocks=()):
        """Makes, sends and delivers a segment, which the other host takes next. Returns the number of the line of its
        arrival."""
        text = connection.text(host, position, flags, acked, payload, window, blocks)
        made = self.make(connection, host, position, len(payload), flags, window)
        connection.takes(1 - host, text)
        return self.comes(1 - host, text, self.goes(host, text, made))

    def refuse(self, host, line):
        """Answers the segment of a line with a reset. Returns the number of the reset."""
        self.step(f"R {host} {line}")
        self.made += 1
        return self.made

    def take(self, host, line, window, keep=0, sample=0):
        self.step(f"T {host} {line} {window} {keep} {sample}")

    def expire(self, connection, host, timer, extra=""):
        ports = connection.ports[host], connection.ports[1 - host]
        self.event(TIMERS[host], f"T {host} {ports[0]} {ports[1]} {timer}", extra)

    def write(self, output):
        for lines in (self.header, self.events, ["witness" + self.header[0].removeprefix("trace")], self.steps):
            for line in lines:
                output.write(line + "\n")


def handshake(case, connection, listener):
    """Connects host 0 to a listener of host 1. Returns the opener's socket."""
    opener = case.given(CALLERS[0], f"open 0 {connection.ports[0]} {connection.ports[1]}")
    case.take(1, case.carry(connection, 0, 0, "S", None), 0)
    case.take(0, case.carry(connection, 1, 0, "AS", 1), INITIAL_WINDOW, sample=case.due)
    case.take(1, case.carry(connection, 0, 1, "A", 1), INITIAL_WINDOW, sample=case.due)
    return opener


def send_syn(case, connection):
    """Opens a socket at host 0 and sends its SYN. Returns the SYN's text and the number of its line."""
    case.given(CALLERS[0], f"open 0 {connection.ports[0]} {connection.ports[1]}")
    text = connection.text(0, 0, "S", None)
    return text, case.goes(0, text, case.make(connection, 0, 0, 0, "S"))


def connected(case, connection, room=0):
    """Opens a connection whose congestion window is at least `room`. Returns both sockets and the number of bytes
    sent."""
    listener = case.given(CALLERS[1], f"listen 1 {connection.ports[1]} 4")
    opener = handshake(case, connection, listener)
    child = case.given(CALLERS[1], f"accept {listener}")
    if room > WINDOW:
        # The windows of a handshake are not scaled (RFC 7323, 2.2).
        case.take(0, case.carry(connection, 1, 1, "A", 1), INITIAL_WINDOW)
    sent = 0
    while INITIAL_WINDOW + sent < room:
        payload = bytes(MSS)
        case.call(CALLERS[0], f"send {opener} {payload.hex()}", f"ok {MSS}")
        case.take(1, case.carry(connection, 0, 1 + sent, "A", 1, payload), INITIAL_WINDOW, keep=1)
        case.call(CALLERS[1], f"recv {child} {MSS}", f"data {payload.hex()}")
        sent += MSS
        case.take(0, case.carry(connection, 1, 1, "A", 1 + sent), INITIAL_WINDOW + sent)
    return opener, child, sent


def send_all(case, opener, count):
    """Sends this many bytes from host 0, in calls."""
    for begin in range(0, count, MOST_BYTES):
        size = min(MOST_BYTES, count - begin)
        case.call(CALLERS[0], f"send {opener} {bytes(size).hex()}", f"ok {size}")


def outstanding(case, connection, sent, count):
    """Makes and sends this many one-byte segments from host 0. Returns the text and the line of each."""
    found = []
    for position in range(1 + sent, 1 + sent + count):
        text = connection.text(0, position, "A", 1, b"\0")
        made = case.make(connection, 0, position, 1, "A")
        found.append((text, case.goes(0, text, made)))
    return found


def receive_all(case, child, count):
    """Receives this many waiting bytes at host 1."""
    for begin in range(0, count, MOST_BYTES):
        size = min(MOST_BYTES, count - begin)
        case.call(CALLERS[1], f"recv {child} {size}", f"data {bytes(size).hex()}")


def bring_pieces(count, order):
    case, connection = Case(), Connection()
    opener, child, sent = connected(case, connection, count)
    send_all(case, opener, count)
    pieces = outstanding(case, connection, sent, count)
    window = INITIAL_WINDOW
    for index in order:
        text, out = pieces[index]
        case.take(1, case.comes(1, text, out), window, keep=1)
    receive_all(case, child, count)
    return case


@kind(50_000, 100_000, 200_000)
def pieces_from_the_last_to_the_first(count):
    return bring_pieces(count, range(count - 1, -1, -1))


@kind(50_000, 100_000, 200_000)
def pieces_with_a_gap_behind_each(count):
    return bring_pieces(count, [*range(count - 1, -1, -2), *range(count - 2, -1, -2)])


@kind(50_000, 100_000, 200_000)
def pieces_in_any_order(count):
    order = list(range(count))
    random.Random(1).shuffle(order)
    return bring_pieces(count, order)


def outstanding_until_a_timeout(count):
    """A case with this many outstanding segments, followed by an expiry of the retransmission timer."""
    case, connection = Case(), Connection()
    opener, _, sent = connected(case, connection, count)
    send_all(case, opener, count)
    outstanding(case, connection, sent, count)
    case.moment += FIRST_TIMEOUT
    case.expire(connection, 0, "rto", f" {MSS} {2 * MSS}")
    return case, connection, sent


@kind(50_000, 100_000, 200_000)
def made_again_from_the_last_to_the_first(count):
    case, connection, sent = outstanding_until_a_timeout(count)
    for position in range(sent + count, sent, -1):
        case.make_again(connection, 0, position, 1, "A")
    return case


@kind(50_000, 100_000, 200_000)
def made_again_in_any_order(count):
    case, connection, sent = outstanding_until_a_timeout(count)
    positions = list(range(1 + sent, 1 + sent + count))
    random.Random(1).shuffle(positions)
    for position in positions:
        case.make_again(connection, 0, position, 1, "A")
    return case


@kind(50_000, 100_000, 200_000)
def the_last_byte_made_again_and_again(count):
    case, connection, sent = outstanding_until_a_timeout(count)
    for _ in range(count):
        case.make_again(connection, 0, sent + count, 1, "A")
    return case


@kind(50_000, 100_000, 200_000)
def acknowledged_one_by_one(count):
    case, connection = Case(), Connection()
    opener, _, sent = connected(case, connection, count)
    send_all(case, opener, count)
    for text, out in outstanding(case, connection, sent, count):
        case.take(1, case.comes(1, text, out), INITIAL_WINDOW, keep=1)
        acked = sent = sent + 1
        case.take(0, case.carry(connection, 1, 1, "A", 1 + acked), INITIAL_WINDOW, sample=1)
    return case


@kind(50_000, 100_000, 200_000)
def read_one_by_one(count):
    case, connection = Case(), Connection()
    opener, child, sent = connected(case, connection, count)
    send_all(case, opener, count)
    for begin in range(0, count, MSS):
        payload = bytes(min(MSS, count - begin))
        case.take(1, case.carry(connection, 0, 1 + sent + begin, "A", 1, payload), INITIAL_WINDOW, keep=1)
    for _ in range(count):
        case.call(CALLERS[1], f"recv {child} 1", "data 00")
    return case


@kind(50_000, 100_000, 200_000)
def sent_one_by_one(count):
    case, connection = Case(), Connection()
    opener, _, sent = connected(case, connection, count)
    for _ in range(count):
        case.call(CALLERS[0], f"send {opener} 00", "ok 1")
    for begin in range(0, count, MSS):
        case.make(connection, 0, 1 + sent + begin, min(MSS, count - begin), "A")
    return case


def copied(case, count):
    """Delivers this many copies of an acknowledgment of host 0 to host 1, where they wait. Returns their lines."""
    connection = Connection()
    connected(case, connection)
    text = connection.text(0, 1, "A", 1)
    out = case.goes(0, text, case.make(connection, 0, 1, 0, "A"))
    return [case.comes(1, text, out) for _ in range(count)]


@kind(75_000, 150_000, 300_000)
def copies_dropped_from_the_last_to_the_first(count):
    case = Case()
    for line in reversed(copied(case, count)):
        case.step(f"K 1 {line}")
    return case


@kind(75_000, 150_000, 300_000)
def copies_taken_in_any_order(count):
    case = Case()
    lines = copied(case, count)
    random.Random(1).shuffle(lines)
    for line in lines:
        case.take(1, line, INITIAL_WINDOW)
    return case


@kind(75_000, 150_000, 300_000)
def duplicate_acknowledgments(count):
    case, connection = Case(), Connection()
    opener, _, _ = connected(case, connection)
    send_all(case, opener, 1)
    case.make(connection, 0, 1, 1, "A")
    text = connection.text(1, 1, "A", 1)
    out = case.goes(1, text, case.make(connection, 1, 1, 0, "A"))
    lines = [case.comes(0, text, out) for _ in range(count)]
    for line in lines:
        case.take(0, line, INITIAL_WINDOW)
    case.step(f"F 0 {connection.ports[0]} {connection.ports[1]} {MSS} {MSS}")
    return case


# The initial state of the toolchain's hasher, and its multiplier.
HASH_START = 0x243F6A8885A308D3
HASH_FACTOR = 0x9E3779B97F4A7C15


def hashed(number, size, state=HASH_START):
    """The state of the toolchain's hasher after one more number of `size` bytes."""
    if size == 2:
        words = number | number >> 8 << 16
    else:
        words = number * {1: 0x010101, 4: 1 | 1 << 32, 8: 1}[size]
    product = (state ^ words) * (HASH_FACTOR ^ 2 * size)
    return (product & (2**64 - 1)) ^ (product >> 64)


def begins_early(state, groups):
    """Whether a key with this hash begins in the first quarter of the slots of a table with this many groups."""
    return ((state ^ (state >> 32)) & (groups - 1)) < max(groups // 4, 1)


def crowds(number, size, groups):
    """Whether a number of `size` bytes, as a key, begins there."""
    return begins_early(hashed(number, size), groups)


def groups_for(count):
    """How many groups of slots a table of the toolchain has for this many entries."""
    groups = 1
    while 9 * groups < count:
        groups *= 2
    return groups


def half_a_call(case, is_open):
    """Adds a line that ends the open call of a thread, or begins one if none is open. Returns whether one is open
    now."""
    if is_open:
        case.event(1, "E badsocket")
    else:
        case.event(1, "B status 1")
        case.step("D 1 badsocket")
    return not is_open


@kind(50_000, 100_000, 200_000)
def copies_on_lines_that_collide(count):
    """Fills the lines in between with calls, so that copies are only on lines whose numbers collide under the
    toolchain's hasher (its seed is fixed)."""
    case, connection = Case(), Connection()
    connected(case, connection)
    text = connection.text(0, 1, "A", 1)
    out = case.goes(0, text, case.make(connection, 0, 1, 0, "A"))
    groups = groups_for(count)
    lines, is_open = [], False
    while len(lines) < count:
        if crowds(FIRST_EVENT_LINE + len(case.events), 8, groups):
            lines.append(case.comes(1, text, out))
        else:
            is_open = half_a_call(case, is_open)
    for line in reversed(lines):
        case.step(f"K 1 {line}")
    return case


@kind(50_000, 100_000, 200_000)
def made_under_numbers_that_collide(count):
    """Host 1 makes the segments in between, so that host 0 makes only those whose numbers collide in a hash table."""
    case, connection = Case(), Connection()
    connected(case, connection)
    groups = groups_for(count)
    crowded = 0
    while crowded < count:
        host = 0 if crowds(case.made + 1, 4, groups) else 1
        case.make(connection, host, 1, 0, "A")
        crowded += 1 - host
    return case


@kind(12_500, 25_000, 50_000)
def children_on_places_that_collide(count):
    """Each listener is closed before the next one opens. It has a child only if its place collides in a hash table."""
    case, connection = Case(), Connection()
    text, out = send_syn(case, connection)
    groups = groups_for(count)
    place = children = 0
    while children < count:
        listener = case.given(CALLERS[1], f"listen 1 {connection.ports[1]} 4")
        if crowds(place, 4, groups):
            case.take(1, case.comes(1, text, out), 0)
            children += 1
        case.call(CALLERS[1], f"close {listener}", "ok")
        place += 1
    return case


def callers(count):
    """Connects this many ports of host 0 to one listener."""
    return [Connection((port, 80), (port * 65_537 % 2**32, 100)) for port in range(1, 1 + count)]


@kind(7_500, 15_000, 30_000)
def children_accepted(count):
    case = Case()
    listener = case.given(CALLERS[1], "listen 1 80 65535")
    for connection in callers(count):
        handshake(case, connection, listener)
    for _ in range(count):
        case.given(CALLERS[1], f"accept {listener}")
    return case


@kind(7_500, 15_000, 30_000)
def children_of_a_closed_listener(count):
    case = Case()
    listener = case.given(CALLERS[1], "listen 1 80 65535")
    found = callers(count)
    for connection in found:
        handshake(case, connection, listener)
    case.call(CALLERS[1], f"close {listener}", "ok")
    for connection in reversed(found):
        line = case.carry(connection, 1, 1, "AR", 1)
        case.take(0, line, INITIAL_WINDOW)
    return case


def half_open(case, count):
    """Adds this many children that never get the third segment of their handshake, and closes their listener."""
    listener = case.given(CALLERS[1], "listen 1 80 0")
    for connection in callers(count):
        case.given(CALLERS[0], f"open 0 {connection.ports[0]} 80")
        case.take(1, case.carry(connection, 0, 0, "S", None), 0)
    case.call(CALLERS[1], f"abort {listener}", "ok")
    return case


@kind(10_000, 20_000, 40_000)
def children_half_open(count):
    return half_open(Case(), count)


@kind(100_000, 200_000, 400_000)
def threads_in_a_call(count):
    case = Case()
    threads = [20 + 3 * index for index in range(count)]
    for thread in threads:
        case.event(thread, "B status 5")
    for thread in reversed(threads):
        case.step(f"D {thread} badsocket")
    random.Random(1).shuffle(threads)
    for thread in threads:
        case.event(thread, "E badsocket")
    return case


def ask_and_end(case, thread, sockets, state, end):
    """Asks for the state of each socket, from the last to the first, and ends them in any order."""
    for socket in reversed(sockets):
        case.call(thread, f"status {socket}", state)
    random.Random(1).shuffle(sockets)
    for socket in sockets:
        case.call(thread, f"{end} {socket}", "ok")


@kind(30_000, 60_000, 120_000)
def listeners(count):
    case = Case()
    places = [(index % 2, 1 + index // 2) for index in range(count)]
    sockets = [case.given(1, f"listen {host} {port} 1") for host, port in places]
    ask_and_end(case, 1, sockets, "state LISTEN", "close")
    return case


@kind(75_000, 150_000, 300_000)
def listeners_on_one_port(count):
    case = Case()
    for _ in range(count):
        socket = case.given(1, "listen 0 80 1")
        case.call(1, f"close {socket}", "ok")
    return case


@kind(15_000, 30_000, 60_000)
def sockets_of_many_ports(count):
    case = Case()
    sockets = [case.given(2, f"open 0 {port} 80") for port in range(1, 1 + count)]
    ask_and_end(case, 2, sockets, "state SYN-SENT", "abort")
    return case


@kind(50_000, 100_000, 200_000)
def sockets_of_one_pair_of_ports(count):
    case = Case()
    sockets = []
    for _ in range(count):
        sockets.append(case.given(2, "open 0 4000 80"))
        case.call(2, f"abort {sockets[-1]}", "ok")
    for socket in sockets:
        case.call(2, f"status {socket}", "badsocket")
    return case


@kind(10_000, 20_000, 40_000)
def connections_of_one_pair_of_ports(count):
    case = Case()
    listener = case.given(CALLERS[1], "listen 1 80 65535")
    for index in range(count):
        connection = Connection(firsts=(1000 * index, 500 * index))
        opener = handshake(case, connection, listener)
        case.call(CALLERS[0], f"abort {opener}", "ok")
        case.take(1, case.carry(connection, 0, 1, "AR", 1), INITIAL_WINDOW)
    return case


@kind(75_000, 150_000, 300_000)
def timeouts_of_a_syn(count):
    case, connection = Case(), Connection()
    text, _ = send_syn(case, connection)
    for _ in range(count):
        case.moment += LAST_TIMEOUT
        case.expire(connection, 0, "rto", f" 536 {4294967295}")
        case.goes(0, text, case.make_again(connection, 0, 0, 0, "S"))
    return case


@kind(50_000, 100_000, 200_000)
def timeouts_over_outstanding_bytes(count):
    case, connection, sent = outstanding_until_a_timeout(count)
    for index in range(count):
        case.moment += LAST_TIMEOUT
        case.expire(connection, 0, "rto", f" {MSS} {2 * MSS}")
        case.make_again(connection, 0, sent + count - index, 1, "A")
    return case


@kind(20_000, 40_000, 80_000)
def windows_of_0_and_probes(count):
    case, connection = Case(), Connection()
    opener, _, _ = connected(case, connection, count)
    send_all(case, opener, count)
    case.take(0, case.carry(connection, 1, 1, "A", 1, window=0), INITIAL_WINDOW)
    for index in range(count):
        case.moment += FIRST_TIMEOUT
        case.expire(connection, 0, "persist")
        case.take(1, case.carry(connection, 0, 1 + index, "A", 1, b"\0"), INITIAL_WINDOW, keep=1)
        case.take(0, case.carry(connection, 1, 1, "A", 2 + index, window=0), INITIAL_WINDOW)
    return case


@kind(50_000, 100_000, 200_000)
def windows_closed_and_opened(count):
    case, connection = Case(), Connection()
    opener, _, _ = connected(case, connection)
    send_all(case, opener, count)
    for index in range(count):
        window = index % 2
        case.take(0, case.carry(connection, 1, 1, "A", 1, window=window), INITIAL_WINDOW)
    return case


@kind(50_000, 100_000, 200_000)
def resets_that_answer(count):
    case, connection = Case(), Connection()
    text, out = send_syn(case, connection)
    copies = [case.comes(1, text, out) for _ in range(count)]
    first = case.made + 1
    for line in reversed(copies):
        case.step(f"R 1 {line}")
    reset = Connection(firsts=(connection.firsts[0], 0)).text(1, 0, "AR", 1, window=0)
    reset_lines = [case.comes(0, reset, case.goes(1, reset, made)) for made in range(first + count - 1, first - 1, -1)]
    case.take(0, reset_lines[-1], 0)
    for line in reset_lines[:-1]:
        case.step(f"K 0 {line}")
    return case


@kind(100_000, 200_000, 400_000)
def lines_that_wait_and_are_placed_from_the_last(count):
    case = Case(skew=1_000_000_000)
    lines = [case.line(20 + index, "B status 5") for index in range(count)]
    for line in reversed(lines):
        case.step(f"L {line}")
    return case


@kind(100_000, 200_000, 400_000)
def lines_never_placed(count):
    case = Case(skew=1_000_000_000)
    for index in range(count):
        case.line(20 + index, "B status 5")
    for _ in range(count):
        case.call(1, "status 5", "badsocket")
    return case


@kind(100_000, 200_000, 400_000)
def lines_of_one_thread_that_wait(count):
    case = Case(skew=1_000_000_000)
    waiting = [case.line(20, f"{letter}") for _ in range(count // 2) for letter in ("B status 5", "E badsocket")]
    for _ in range(count // 2):
        case.call(1, "status 5", "badsocket")
    for place, line in enumerate(waiting):
        case.step(f"L {line}")
        if place % 2 == 0:
            case.step("D 20 badsocket")
    return case


# FxHash reads words of eight bytes: its multiplier, and the digest that every payload has.
FX_FACTOR = 0x517CC1B727220A95
FX_WANTED = 0x123456789ABCDEF0


def fx_turned(state):
    return (state << 5 | state >> 59) & (2**64 - 1)


def colliding_payload(header, size):
    """A payload of `size` bytes whose last eight give a segment with this hex header the wanted digest."""
    first = bytes.fromhex(header) + bytes(size - 8)
    state = len(first) + 8
    for (word,) in struct.iter_unpack("<Q", first):
        state = (fx_turned(state) ^ word) * FX_FACTOR % 2**64
    last = fx_turned(state) ^ FX_WANTED * pow(FX_FACTOR, -1, 2**64) % 2**64
    return bytes(size - 8) + last.to_bytes(8, "little")


@find_kind(10_000, 20_000, 40_000)
def segments_whose_digests_collide(count):
    """All data segments of a connection have the same FxHash digest. Each is received and acknowledged before the next
    is sent."""
    case, connection = Case(), Connection()
    opener, child, _ = connected(case, connection)
    for position in range(1, 1 + 60 * count, 60):
        payload = colliding_payload(connection.text(0, position, "A", 1), 60)
        case.call(CALLERS[0], f"send {opener} {payload.hex()}", "ok 60")
        case.take(1, case.carry(connection, 0, position, "A", 1, payload), INITIAL_WINDOW, keep=1)
        case.call(CALLERS[1], f"recv {child} 60", f"data {payload.hex()}")
        case.take(0, case.carry(connection, 1, 1, "A", position + 60), INITIAL_WINDOW)
    return case


@find_kind(2_000, 4_000, 8_000)
def segments_with_equal_long_prefixes(count):
    """Only the last eight of the 1,480 bytes of these segments differ.

    Within a connection, the sequence numbers would differ too, and they are among the first bytes. So each segment is
    the first of a new connection with the same ports and initial sequence numbers, and the connection is then aborted.
    """
    case, connection = Case(), Connection()
    listener = case.given(CALLERS[1], "listen 1 80 65535")
    ends = random.Random(1)
    for _ in range(count):
        opener = handshake(case, connection, listener)
        payload = bytes(1452) + ends.randbytes(8)
        case.call(CALLERS[0], f"send {opener} {payload.hex()}", "ok 1460")
        case.take(1, case.carry(connection, 0, 1, "A", 1, payload), INITIAL_WINDOW, keep=1)
        case.call(CALLERS[0], f"abort {opener}", "ok")
        case.take(1, case.carry(connection, 0, 1461, "AR", 1), INITIAL_WINDOW)
    return case


@find_kind(50_000, 100_000, 200_000)
def calls_of_threads_that_collide(count):
    """All calls are open at once, because their socket exists only after the last of them began."""
    case = Case()
    threads = colliding(count)
    for thread in threads:
        case.event(thread, "B status 5")
    case.given(2**32 - 1, "listen 1 80 4")
    for thread in threads:
        case.step(f"D {thread} state LISTEN")
        case.event(thread, "E state LISTEN")
    return case


def ports_that_collide(count):
    """This many pairs of ports of host 1 that collide in a table keyed by hosts and ports."""
    groups, found = groups_for(count), []
    for port in range(1, LAST_PORT + 1):
        state = hashed(port, 2, hashed(1, 1))
        for other in range(1, LAST_PORT + 1):
            if len(found) == count:
                return found
            if begins_early(hashed(other, 2, state), groups):
                found.append((port, other))
    return found


@find_kind(10_000, 20_000, 40_000)
def connections_whose_ports_collide(count):
    """Host 1 has no listener and answers each SYN with a reset."""
    case = Case()
    for port, other in ports_that_collide(count):
        connection = Connection((other, port), (1000, 0))
        case.given(CALLERS[0], f"open 0 {other} {port}")
        made = case.refuse(1, case.carry(connection, 0, 0, "S", None))
        reset = connection.text(1, 0, "AR", 1, window=0)
        case.take(0, case.comes(0, reset, case.goes(1, reset, made)), 0)
    return case


def resets_on_crowded_lines(count, first):
    """Host 1 answers this many copies of a SYN with resets. They are sent only on lines whose numbers, counted from
    `first`, collide in a table."""
    case, connection = Case(), Connection(firsts=(1000, 0))
    syn, out = send_syn(case, connection)
    made = [case.refuse(1, case.comes(1, syn, out)) for _ in range(count)]
    reset = connection.text(1, 0, "AR", 1, window=0)
    groups = groups_for(count)
    is_open = False
    while made or is_open:
        if made and crowds(first + len(case.events), 8, groups):
            case.goes(1, reset, made.pop())
        else:
            is_open = half_a_call(case, is_open)
    return case


@find_kind(25_000, 50_000, 100_000)
def lines_that_go_out_on_places_that_collide(count):
    """A place is counted from 0, from the first event line on."""
    return resets_on_crowded_lines(count, 0)


@find_kind(25_000, 50_000, 100_000)
def lines_that_go_out_under_numbers_that_collide(count):
    """Line numbers include the header's lines."""
    return resets_on_crowded_lines(count, FIRST_EVENT_LINE)


@find_kind(25_000, 50_000, 100_000)
def calls_that_begin_on_places_that_collide(count):
    """The lines in between end these calls, or begin others that never end."""
    case = Case()
    groups = groups_for(count)
    begun, is_open = 0, []
    while begun < count or is_open:
        thread = 20 + len(case.events)
        if begun < count and crowds(len(case.events), 8, groups):
            case.event(thread, "B status 5")
            case.step(f"D {thread} badsocket")
            is_open.append(thread)
            begun += 1
        elif is_open:
            case.event(is_open.pop(), "E badsocket")
        else:
            case.event(thread, "B status 5")
    return case


@find_kind(12_500, 25_000, 50_000)
def calls_that_wait_at_places_that_collide(count):
    """Calls that never end wait only at endpoints of host 0 whose places collide in a table, four at each."""
    case = Case()
    groups = groups_for(count)
    endpoint_of_host_0 = hashed(1, 1, hashed(0, 1))
    place = waiting = 0
    while waiting < count:
        socket = case.given(CALLERS[0], f"open 0 {1 + place % LAST_PORT} {1 + place // LAST_PORT}")
        if begins_early(hashed(place, 4, endpoint_of_host_0), groups):
            for thread in range(4 * place, 4 * place + 4):
                case.event(20 + thread, f"B recv {socket} 1")
            waiting += 1
        place += 1
    return case


@kind(7_500, 15_000, 30_000)
def watched_endpoints_that_are_idle(count):
    """Each has sent and received a byte. The end looks at all of them."""
    return idle_endpoints(Case(header=WATCHED_HEADER), count)


@kind(7_500, 15_000, 30_000)
def stricter_endpoints_that_are_idle(count):
    """The same in version 6."""
    return idle_endpoints(Case(header=STRICT_HEADER), count)


def idle_endpoints(case, count):
    listener = case.given(CALLERS[1], "listen 1 80 65535")
    for connection in callers(count):
        opener = handshake(case, connection, listener)
        case.call(CALLERS[0], f"send {opener} 00", "ok 1")
        case.take(1, case.carry(connection, 0, 1, "A", 1, b"\0"), INITIAL_WINDOW, keep=1)
        case.take(0, case.carry(connection, 1, 1, "A", 2), INITIAL_WINDOW + 1, sample=case.due)
    return case


@kind(75_000, 150_000, 300_000)
def watched_copies_that_wait(count):
    """Half of them are processed in any order. The others still wait at the end."""
    case = Case(header=WATCHED_HEADER)
    lines = copied(case, count)
    random.Random(1).shuffle(lines)
    for line in lines[::2]:
        case.take(1, line, INITIAL_WINDOW)
    return case


@kind(75_000, 150_000, 300_000)
def watched_segments_never_sent(count):
    """Host 0 builds acknowledgments, and then sends the one that it built first."""
    return segments_never_sent(Case(header=WATCHED_HEADER), count)


@kind(75_000, 150_000, 300_000)
def stricter_segments_never_sent(count):
    """The same in version 6, where the end looks at all of them."""
    return segments_never_sent(Case(header=STRICT_HEADER), count)


def segments_never_sent(case, count):
    connection = Connection()
    connected(case, connection)
    made = [case.make(connection, 0, 1, 0, "A") for _ in range(count)]
    case.goes(0, connection.text(0, 1, "A", 1), made[0])
    return case


@kind(75_000, 150_000, 300_000)
def stricter_acknowledgments_of_copies(count):
    """Copies of one byte permit as many acknowledgments, which are all sent at the end."""
    case, connection = Case(header=STRICT_HEADER), Connection()
    opener, _, _ = connected(case, connection)
    send_all(case, opener, 1)
    text = connection.text(0, 1, "A", 1, b"\0")
    out = case.goes(0, text, case.make(connection, 0, 1, 1, "A"))
    first, *others = [case.comes(1, text, out) for _ in range(count)]
    case.take(1, first, INITIAL_WINDOW, keep=1)
    for line in others:
        case.step(f"K 1 {line}")
    made = [case.make(connection, 1, 1, 0, "A") for _ in range(count)]
    for number in made:
        case.goes(1, connection.text(1, 1, "A", 2), number)
    return case


@kind(50_000, 100_000, 200_000)
def stricter_threads_that_wait_at_one_socket(count):
    """Each of them receives one byte, in any order."""
    case, connection = Case(header=STRICT_HEADER), Connection()
    opener, child, sent = connected(case, connection, INITIAL_WINDOW)
    threads = [20 + 3 * index for index in range(count)]
    for thread in threads:
        case.event(thread, f"B recv {child} 1")
    send_all(case, opener, count)
    random.Random(1).shuffle(threads)
    for thread, (text, out) in zip(threads, outstanding(case, connection, sent, count)):
        case.take(1, case.comes(1, text, out), INITIAL_WINDOW, keep=1)
        case.step(f"D {thread} data 00")
        case.event(thread, "E data 00")
    return case


@kind(30_000, 60_000, 120_000)
def stricter_threads_that_wait_at_listeners(count):
    """The end looks at all of them."""
    case = Case(header=STRICT_HEADER)
    for index in range(count):
        socket = case.given(1, f"listen {index % 2} {1 + index // 2} 1")
        case.event(20 + 3 * index, f"B accept {socket}")
    return case


@kind(7_500, 15_000, 30_000)
def watched_children_half_open(count):
    """Each counts for its listener until that is closed."""
    return half_open(Case(header=WATCHED_HEADER), count)


class Sender:
    """A half case: host 0 opened a connection and sends, and its peer's window is as wide as it can be."""

    def __init__(self, count, selective=True, mss=MSS, stamped=False):
        """The endpoint accepts this many bytes."""
        self.case = Case(header=FLIGHT_HEADER)
        self.connection = Connection(selective=selective, mss=mss, stamped=stamped)
        # SND.UNA and SND.MAX, and the positions that were built more than once.
        self.una, self.end, self.again = 0, 1, set()
        syn, _ = send_syn(self.case, self.connection)
        self.connection.takes(1, syn)
        self.socket = self.case.socket
        self.process(0, "AS", 1)
        self.case.make(self.connection, 0, 1, 0, "A")
        # The windows of a handshake are not scaled (RFC 7323, 2.2).
        self.hear(1)
        self.accept(count)

    def accept(self, count):
        """The endpoint accepts this many bytes more."""
        send_all(self.case, self.socket, count)

    def process(self, position, flags, acked, payload=b"", window=WINDOW, blocks=()):
        """The endpoint receives a segment and processes it."""
        text = self.connection.text(1, position, flags, acked, payload, window, blocks)
        line = self.case.event(WIRES[0], f"I 0 {text}")
        sample = int(acked > self.una and acked - 1 not in self.again)
        self.case.take(0, line, INITIAL_WINDOW, keep=int(len(payload) > 0), sample=sample)
        self.connection.takes(0, text)
        self.una = max(self.una, acked)

    def hear(self, acked=None, blocks=(), window=WINDOW):
        """Its peer acknowledges all before a position, by default nothing new, and reports blocks."""
        self.process(1, "A", self.una if acked is None else acked, window=window, blocks=blocks)

    def tell(self, positions, acked=None):
        """Reports up to four positions, each as a block."""
        self.hear(acked, [(position, position + 1) for position in positions])

    def build(self, size=1):
        """Builds a segment of bytes that weren't sent yet. Returns its first position."""
        self.case.make(self.connection, 0, self.end, size, "A")
        self.end += size
        return self.end - size

    def build_singly(self, count):
        for _ in range(count):
            self.build()

    def build_again(self, position, size=1):
        self.case.make_again(self.connection, 0, position, size, "A")
        self.again.update(range(position, position + size))

    def expire(self, timer):
        self.case.moment += LAST_TIMEOUT
        self.case.expire(self.connection, 0, timer, f" {MSS} {2 * MSS}" if timer == "rto" else "")

    def recover(self):
        """Fast recovery begins."""
        ports = self.connection.ports
        self.case.step(f"F 0 {ports[0]} {ports[1]} {MSS} {MSS}")

    def undo(self):
        """The last recovery is undone."""
        ports = self.connection.ports
        self.case.step(f"U 0 {ports[0]} {ports[1]} {MSS} {MSS}")

    def recover_by_duplicates(self):
        for _ in range(3):
            self.hear()
        self.recover()

    def tell_every_second(self, count):
        """Builds this many bytes singly, and every second is told. Returns those, and the others before the last."""
        self.build_singly(count)
        told = range(self.end - count + 1, self.end, 2)
        for begin in range(0, len(told), 4):
            self.tell(told[begin:begin + 4])
        return told, range(self.end - count, told[-1], 2)


def in_fours(positions):
    """All positions in any order, four at a time."""
    positions = list(positions)
    random.Random(1).shuffle(positions)
    return [positions[begin:begin + 4] for begin in range(0, len(positions), 4)]


@kind(50_000, 100_000, 200_000)
def selective_holes_that_are_sent_again(count):
    """Four bytes are told at a time, and another is sent behind each acknowledgment."""
    sender = Sender(2 * count)
    sender.build_singly(count)
    for positions in in_fours(range(2, count, 2)):
        sender.tell(positions)
        sender.build()
    sender.recover()
    for position in range(1, count - 1, 2):
        sender.build_again(position)
    sender.hear(sender.end)
    return sender.case


@kind(25_000, 50_000, 100_000)
def selective_holes_that_are_told_at_last(count):
    """They are sent again and told in any order; their number falls, and each is acknowledged only at the end."""
    sender = Sender(count)
    _, holes = sender.tell_every_second(count)
    sender.recover()
    for positions in in_fours(holes[1:]):
        for position in positions:
            sender.build_again(position)
        sender.tell(positions)
    sender.build_again(holes[0])
    sender.hear(sender.end)
    return sender.case


@kind(25_000, 50_000, 100_000)
def selective_holes_that_are_lost_again_and_again(count):
    """Each time that a hole was sent again, a new byte was sent and told, so all holes are lost again."""
    sender = Sender(2 * count)
    _, holes = sender.tell_every_second(count)
    sender.recover()
    for index in range(count):
        sender.build_again(holes[(index * 7) % len(holes)])
        sender.tell([sender.build()])
    return sender.case


@kind(15_000, 30_000, 60_000)
def selective_segments_told_in_parts(count):
    """Long segments, of which each acknowledgment tells four bytes; another byte is sent behind it."""
    size = 8 * count
    sender = Sender(size + count)
    for begin in range(0, size, MSS):
        sender.build(min(MSS, size - begin))
    for positions in in_fours(range(2, size, 2)):
        sender.tell(positions)
        sender.build()
    sender.hear(sender.end)
    return sender.case


@kind(15_000, 30_000, 60_000)
def selective_parts_acknowledged_one_by_one(count):
    """The same, acknowledged part by part."""
    size = 8 * count
    sender = Sender(size)
    for begin in range(0, size, MSS):
        sender.build(min(MSS, size - begin))
    for positions in in_fours(range(2, size, 2)):
        sender.tell(positions)
    for position in range(3, size, 8):
        sender.hear(position, [(size - 1, size)])
    return sender.case


@kind(25_000, 50_000, 100_000)
def selective_segments_sent_again_over_parts(count):
    """A thousand acknowledgments tell 4,000 bytes of a segment; then it is sent again whole, after a timeout."""
    sender = Sender(8_000)
    sender.build(8_000)
    parts = in_fours(range(2, 8_000, 2))
    for begin in range(0, count, 1_000):
        for positions in parts[:count - begin]:
            sender.tell(positions)
        sender.expire("rto")
        sender.build_again(1, 8_000)
    return sender.case


@kind(25_000, 50_000, 100_000)
def selective_three_told_again_and_again(count):
    """The last byte is told. Again and again two others are, so all before it is lost, and then acknowledged."""
    sender = Sender(2 * count)
    sender.build_singly(count)
    last = (count, count + 1)
    for first in range(1, count - 3, 3):
        sender.hear(blocks=[(first + 1, first + 2), (first + 2, first + 3), last])
        sender.build()
        sender.hear(first + 3, [last])
        sender.build()
    return sender.case


@kind(25_000, 50_000, 100_000)
def selective_window_that_slides(count):
    """Each acknowledgment has a byte more, and a block up to the last; another byte is sent behind it."""
    sender = Sender(2 * count)
    sender.build_singly(count)
    for position in range(2, 2 + count):
        sender.hear(position, [(position + 1, sender.end)] if position + 1 < sender.end else ())
        sender.build()
    return sender.case


@kind(50_000, 100_000, 200_000)
def selective_blocks_that_say_nothing_new(count):
    """Every second byte was told. Again and again, four of them are told again in any order."""
    sender = Sender(count)
    told, _ = sender.tell_every_second(count)
    for index in range(count):
        sender.tell([told[(index * 4_099 + place * 7_919) % len(told)] for place in range(4)])
    return sender.case


@kind(50_000, 100_000, 200_000)
def selective_wide_blocks_that_say_nothing_new(count):
    """All but the first byte was told, singly. Again and again, it's all told in four blocks that overlap."""
    sender = Sender(count)
    sender.build_singly(count)
    for positions in in_fours(range(2, count + 1)):
        sender.tell(positions)
    for index in range(count):
        sender.hear(blocks=[(2 + index % (count // 2) * (place > 0), count + 1) for place in range(4)])
    return sender.case


@kind(10_000, 20_000, 40_000)
def selective_timeouts_after_which_all_goes_again(count):
    """Ten times, in any order."""
    sender = Sender(count)
    sender.build_singly(count)
    positions = list(range(1, count + 1))
    for seed in range(10):
        sender.expire("rto")
        random.Random(seed).shuffle(positions)
        for position in positions:
            sender.build_again(position)
    return sender.case


@kind(25_000, 50_000, 100_000)
def selective_timeouts_over_what_is_told(count):
    """All but the first byte was told. After each timeout, that one goes again, and the rest is told again."""
    sender = Sender(count)
    sender.build_singly(count)
    for _ in range(count):
        sender.expire("rto")
        sender.build_again(1)
        sender.hear(blocks=[(2, count + 1)])
    return sender.case


@kind(25_000, 50_000, 100_000)
def selective_timeouts_over_holes(count):
    """Every second byte was told. After each timeout, one of the others goes again, and four are told again."""
    sender = Sender(count)
    told, holes = sender.tell_every_second(count)
    for index in range(count):
        sender.expire("rto")
        sender.build_again(holes[index * 7 % len(holes)])
        sender.tell([told[(index * 4_099 + place * 7_919) % len(told)] for place in range(4)])
    return sender.case


@kind(25_000, 50_000, 100_000)
def selective_timeouts_over_marks(count):
    """After a timeout, every second byte goes again; after the next one, the others. Both, ten times."""
    length = max(1, count // 5)
    sender = Sender(length)
    sender.build_singly(length)
    for time in range(20):
        sender.expire("rto")
        for position in range(1 + time % 2, 1 + length, 2):
            sender.build_again(position)
    return sender.case


@kind(25_000, 50_000, 100_000)
def selective_probes_over_holes(count):
    """Every second byte was told, and the window is closed. After each probe, one of the others goes again."""
    sender = Sender(count)
    _, holes = sender.tell_every_second(count)
    sender.hear(window=0)
    for index in range(count):
        sender.expire("persist")
        sender.build_again(holes[index * 7 % len(holes)])
    return sender.case


@kind(25_000, 50_000, 100_000)
def selective_windows_that_open_over_holes(count):
    """Every second byte was told. Each time that the window opened, one of the others goes again."""
    sender = Sender(count)
    told, holes = sender.tell_every_second(count)
    for index in range(count):
        sender.hear(window=0)
        sender.hear(window=1 + index % WINDOW, blocks=[(told[index % len(told)], told[index % len(told)] + 1)])
        sender.build_again(holes[index * 7 % len(holes)])
    return sender.case


@kind(25_000, 50_000, 100_000)
def selective_tail_probes_along_a_transfer(count):
    """Two bytes are sent at a time. The last one goes again as a tail loss probe, and both are acknowledged."""
    sender = Sender(2 * count)
    for _ in range(count):
        sender.build_singly(2)
        sender.expire("pto")
        sender.build_again(sender.end - 1)
        sender.hear(sender.end)
    return sender.case


@kind(25_000, 50_000, 100_000)
def selective_tail_probes_after_what_was_told(count):
    """A tail loss probe of new data goes, and other bytes behind it. Every second one is told, and then all but the
    last are acknowledged. There are as many probes as bytes behind each of them."""
    size = max(2, math.isqrt(count))
    sender = Sender(size * (size + 1) + 1)
    sender.build()
    for _ in range(size):
        sender.expire("pto")
        first = sender.build()
        sender.build_singly(size)
        for positions in in_fours(range(first + 1, sender.end - 1, 2)):
            sender.tell(positions)
        sender.hear(sender.end - 1)
    return sender.case


@kind(25_000, 50_000, 100_000)
def selective_timeouts_that_are_undone(count):
    """Three bytes are sent at a time. After each timeout, an acknowledgment shows that two had arrived before."""
    sender = Sender(3 * count)
    for _ in range(count):
        sender.build_singly(3)
        sender.expire("rto")
        sender.build_again(sender.una)
        sender.hear(sender.una + 2)
        sender.undo()
        sender.hear(sender.end)
    return sender.case


@kind(50_000, 100_000, 200_000)
def selective_timeouts_undone_over_holes(count):
    """Every second byte is told before each timeout, and two more are acknowledged after it. There are as many timeouts
    as bytes in each flight."""
    size = max(8, math.isqrt(count))
    sender = Sender(size * size)
    for _ in range(size):
        sender.tell_every_second(size)
        sender.expire("rto")
        sender.build_again(sender.una)
        sender.hear(sender.una + 4)
        sender.undo()
        sender.hear(sender.end)
    return sender.case


def recoveries_without_a_loss(count, place):
    """Again and again, all that was accepted is sent in segments of one byte, and three duplicates come. Then one byte
    goes again, and all is acknowledged. There are as many recoveries as bytes in each of them."""
    sender = Sender(1, mss=1)
    sender.build()
    sender.hear(2)
    size = math.isqrt(count)
    for _ in range(size):
        sender.accept(size)
        sender.build_singly(size)
        sender.recover_by_duplicates()
        sender.build_again(sender.una + place % size)
        sender.hear(sender.end)
    return sender.case


@kind(50_000, 100_000, 200_000)
def selective_recoveries_of_the_first_byte(count):
    return recoveries_without_a_loss(count, 0)


@kind(50_000, 100_000, 200_000)
def selective_recoveries_with_a_rescue(count):
    """The last byte goes again, once in each recovery."""
    return recoveries_without_a_loss(count, -1)


@kind(25_000, 50_000, 100_000)
def selective_recoveries_by_short_flights(count):
    """Each of four bytes, of which three are told."""
    sender = Sender(4 * count)
    for _ in range(count):
        sender.build_singly(4)
        first = sender.una
        sender.hear(blocks=[(first + 1, sender.end)])
        sender.recover()
        sender.build_again(first)
        sender.hear(sender.end)
    return sender.case


@kind(25_000, 50_000, 100_000)
def selective_bytes_that_are_late_by_time(count):
    """Each was built later than the one before. The last two are told, and with each duplicate, one more is late."""
    sender = Sender(2 * count)
    for _ in range(count):
        sender.build()
        sender.case.moment += 1
    sender.tell([count - 1, count])
    for _ in range(count):
        sender.hear()
    sender.recover()
    for position in range(1, count - 1):
        sender.build_again(position)
    return sender.case


@kind(50_000, 100_000, 200_000)
def plain_partial_acknowledgments(count):
    """After three duplicates, each acknowledgment has a byte more, and the next goes again."""
    sender = Sender(count, selective=False)
    sender.build_singly(count)
    sender.recover_by_duplicates()
    for position in range(1, count):
        sender.build_again(position)
        sender.hear(position + 1)
    return sender.case


@kind(50_000, 100_000, 200_000)
def plain_segments_never_acknowledged(count):
    """Duplicates come for all of them. After a timeout, they go again from the last to the first."""
    sender = Sender(count, selective=False)
    sender.build_singly(count)
    for _ in range(count):
        sender.hear()
    sender.expire("rto")
    for position in range(count, 0, -1):
        sender.build_again(position)
    return sender.case


@kind(50_000, 100_000, 200_000)
def plain_windows_that_open(count):
    """All is outstanding. Each time that the window opened, one byte goes again, and all but the first may."""
    sender = Sender(count, selective=False)
    sender.build_singly(count)
    for position in range(count, 0, -1):
        sender.hear(window=0)
        sender.hear(window=1)
        sender.build_again(position)
    return sender.case


@kind(50_000, 100_000, 200_000)
def plain_segments_acknowledged_by_bytes(count):
    sender = Sender(count, selective=False)
    for begin in range(0, count, MSS):
        sender.build(min(MSS, count - begin))
    for position in range(1, 1 + count):
        sender.hear(position + 1)
    return sender.case


@kind(50_000, 100_000, 200_000)
def plain_segments_sent_again_by_bytes(count):
    """After a timeout, single bytes of long segments go again, in any order."""
    sender = Sender(count, selective=False)
    for begin in range(0, count, MSS):
        sender.build(min(MSS, count - begin))
    sender.expire("rto")
    positions = list(range(1, 1 + count))
    random.Random(1).shuffle(positions)
    for position in positions:
        sender.build_again(position)
    return sender.case


def receive_singly(positions):
    """Host 0 receives a byte at each of these positions, and acknowledges each with blocks for the last four."""
    sender = Sender(1)
    connection, following, received, recent = sender.connection, 1, set(), []
    for position in positions:
        sender.process(position, "A", 1, b"\0")
        received.add(position)
        while following in received:
            following += 1
        recent = [position, *recent[:3]]
        blocks = [(last, last + 1) for last in recent if following <= last]
        made = sender.case.make(connection, 0, 1, 0, "A")
        sender.case.goes(0, connection.text(0, 1, "A", following, blocks=blocks), made)
    return sender.case


@kind(25_000, 50_000, 100_000)
def selective_receiver_of_gaps(count):
    """Every second byte comes, and then the others, of which the first is the last."""
    return receive_singly([*range(2, count, 2), *range(3, count, 2), 1])


@kind(25_000, 50_000, 100_000)
def selective_receiver_in_any_order(count):
    positions = list(range(1, 1 + count))
    random.Random(1).shuffle(positions)
    return receive_singly(positions)


@kind(25_000, 50_000, 100_000)
def selective_receiver_of_a_gap_again_and_again(count):
    """Each byte comes after the one behind it. The first thousand come last, so that many gaps stay."""
    far = range(count, 2 * count, 2)
    return receive_singly([*far, *(position for first in range(2, count, 2) for position in (first, first - 1))])


SEGMENT = 1_000
FLIGHT = 100


def carry_again(case, connection, position, payload):
    """Host 0 sends bytes again. Returns the number of the line of their arrival."""
    text = connection.text(0, position, "A", 1, payload)
    return case.comes(1, text, case.goes(0, text, case.make_again(connection, 0, position, len(payload), "A")))


def ranges_behind(holes, end):
    """What arrived behind each of these lost segments, before a position."""
    parts = [(hole + SEGMENT, min(following, end)) for hole, following in zip(holes, [*holes[1:], end])]
    return [part for part in parts if part[0] < part[1]]


def transfer(count, connection, lost):
    """Host 0 sends this many segments, a hundred at a time. Of each hundred, those at these places are lost: none, if
    segments have timestamps."""
    case = Case(header=STRICT_HEADER)
    opener, child, _ = connected(case, connection)
    case.take(0, case.carry(connection, 1, 1, "A", 1), INITIAL_WINDOW)
    payload = bytes(SEGMENT)
    for begin in range(1, 1 + SEGMENT * count, SEGMENT * FLIGHT):
        end = begin + SEGMENT * FLIGHT
        holes = [begin + SEGMENT * place for place in lost]
        first = min(holes, default=end)
        sent = []
        for position in range(begin, end, SEGMENT):
            case.call(CALLERS[0], f"send {opener} {payload.hex()}", f"ok {SEGMENT}")
            text = connection.text(0, position, "A", 1, payload)
            sent.append((position, text, case.goes(0, text, case.make(connection, 0, position, SEGMENT, "A"))))
        for position, text, out in sent:
            if position in holes:
                continue
            case.take(1, case.comes(1, text, out), INITIAL_WINDOW, keep=1)
            connection.takes(1, text)
            behind = position + SEGMENT
            line = case.carry(connection, 1, 1, "A", min(behind, first), blocks=ranges_behind(holes, behind))
            case.take(0, line, INITIAL_WINDOW, sample=int(position < first))
        if holes:
            case.step(f"F 0 {connection.ports[0]} {connection.ports[1]} {MSS} {MSS}")
        for hole, following in zip(holes, [*holes[1:], end]):
            case.take(1, carry_again(case, connection, hole, payload), INITIAL_WINDOW, keep=1)
            line = case.carry(connection, 1, 1, "A", following)
            case.take(0, line, INITIAL_WINDOW, sample=int(hole + SEGMENT < following))
        receive_all(case, child, SEGMENT * FLIGHT)
    return case


@kind(2_000, 4_000, 8_000)
def selective_transfer(count):
    return transfer(count, Connection(selective=True), [17, 50, 51, 93])


@kind(2_000, 4_000, 8_000)
def plain_transfer(count):
    return transfer(count, Connection(), [])


@kind(2_000, 4_000, 8_000)
def stamped_transfer(count):
    return transfer(count, Connection(stamped=True), [])


@kind(25_000, 50_000, 100_000)
def stamped_segments_never_sent(count):
    """After each segment of its peer, host 0 builds one of a byte, which echoes that clock. At the end, every second of
    them is sent, from the last to the first."""
    sender = Sender(count, stamped=True)
    case, connection = sender.case, sender.connection
    # A clock is echoed if its segment begins at or below what was acknowledged.
    case.goes(0, connection.text(0, 1, "A", 1), case.make(connection, 0, 1, 0, "A"))
    built = []
    for _ in range(count):
        sender.hear()
        text = connection.text(0, sender.build(), "A", 1, b"\0")
        built.append((text, case.made))
    for text, made in reversed(built[::2]):
        case.goes(0, text, made)
    return case


def verdict_of(case):
    """The expected line: yes with its counts, or no if a line is never placed."""
    taken = sum(1 for step in case.steps if step.split(" ", 2)[1] == "L")
    if taken < len(case.events):
        return f"no 0 {1 + len(case.header)} unplaced"
    return f"yes {taken} {len(case.steps) - taken}"


def main():
    kinds = KINDS | FIND_KINDS
    if "--help" in sys.argv:
        print(__doc__.strip(), "\n\nThe kinds: ", ", ".join(kinds), sep="")
        return
    if len(sys.argv) != 3 or sys.argv[1] not in kinds:
        sys.exit("hostile_cases.py KIND SIZE, where KIND is one of: " + ", ".join(kinds))
    function, _ = kinds[sys.argv[1]]
    function(int(sys.argv[2])).write(sys.stdout)


if __name__ == "__main__":
    main()
