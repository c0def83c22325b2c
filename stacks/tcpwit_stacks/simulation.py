"""A run of one scenario: a clock, a wire, threads of calls, and the lines of the trace.

Time is simulated: the stack handles each event instantly, and the clock then moves to the next event. So a run depends
only on the scenario, its seed and the stack.
"""
import heapq

from .host import Cannot, Host
from .peer import Peer
from .segments import SYN, read, stream
from .storms import KEPT, storm
from .wire import Sent, Wire

FAULTS = ("refused", "reset", "timeout")
# The calls that report a fault of their connection.
TELLING = ("await", "send", "recv", "shut")
# Threads of the lines that no call writes, for host 0 and host 1.
OUT_THREAD, IN_THREAD, TIMER_THREAD = 90, 92, 94
# The thread of the call that ends the recording. It is about a socket that doesn't exist, so it changes nothing.
LAST_THREAD, NO_SOCKET = 96, 0
LONGEST_CALL = 60000


class Thread:
    """A thread of the scenario, and how far it is."""

    def __init__(self, thread):
        self.number, self.host, self.steps = thread.number, thread.host, thread.steps
        self.at = 0
        self.open = None       # the call that waits for its answer
        self.told = 0          # bytes that this step sent or received so far
        self.ready = 0         # it waits until this moment
        self.ended = False
        self.began = 0         # when its last call began


class Run:
    """The run as a whole."""

    def __init__(self, scenario, command, watch, options=""):
        self.scenario, self.command, self.watch, self.options = scenario, command, watch, options
        self.wire = Wire(scenario)
        self.lines, self.events, self.hosts = [], [], []
        self.now = self.order = self.count = 0
        self.threads = [Thread(thread) for thread in scenario.threads]
        self.names = {}          # (thread's host or None, name): socket number
        self.handles = {}        # socket number: (host, the stack's number)
        self.last_number = 1
        self.faults = {}
        self.dead = set()
        self.sent = {}           # socket number: bytes accepted
        self.received = {}
        self.unexpected = []
        self.peer = Peer(self) if scenario.peer else None
        self.sent_so_far = Sent()
        self.wanted_iss = {host: number for (host, word), number in scenario.settings.items() if word == "iss"}
        self.resent = False      # the stack retransmitted at a tick
        self.expired = False     # the stack reported that a timer expired
        self.early = False       # ended after too many events
        self.storm = None        # the place in `lines` where a storm of acknowledgments began

    # ---- the trace ----

    def say(self, thread, text):
        self.lines.append(f"{self.now} {thread} {text}")

    def at(self, moment, deed, *what):
        self.order += 1
        heapq.heappush(self.events, (moment, self.order, deed, what))

    # ---- the stacks ----

    def ask(self, host, command):
        """Sends a stack a command, and handles the results."""
        call = command.split(" ", 1)[0]
        answer, happened = self.hosts[host].ask(call, f"{self.now} {command}")
        for word, rest in happened:
            if word == "expired":
                local, remote, timer = rest.split()
                self.say(TIMER_THREAD + host, f"T {host} {local} {remote} {timer}")
                self.expired = True
            else:
                self.leave(host, rest, call)
        return answer

    def leave(self, host, text, call):
        """Handles a segment that a host sent during `call`."""
        self.say(OUT_THREAD + host, f"O {host} {text}")
        segment = read(bytes.fromhex(text))
        if segment.has(SYN) and self.wanted_iss.pop(host, segment.seq) != segment.seq:
            raise Cannot(f"iss at host {host}")
        self.resent |= self.sent_so_far.is_again(host, segment) and call == "tick"
        for delay in self.wire.delays(host, segment, self.now):
            self.at(self.now + delay, "come", 1 - host, text)

    def come(self, host, text):
        if self.peer and host == 1:
            self.peer.take(read(bytes.fromhex(text)))
            return
        self.say(IN_THREAD + host, f"I {host} {text}")
        self.ask(host, f"in {text}")

    # ---- threads ----

    def begin(self, thread):
        """Runs a thread's steps until one of them waits."""
        while not thread.ended and not thread.open and thread.ready <= self.now:
            if thread.at == len(thread.steps):
                thread.ended = True
                return
            step = thread.steps[thread.at]
            if step.word == "wait":
                thread.at += 1
                thread.ready = self.now + step.args[0]
                self.at(thread.ready, "wake")
            elif step.word == "after":
                if self.wire.waits.get((step.args[0], step.args[1]), 0) < step.args[2]:
                    return
                thread.at += 1
            elif not self.call(thread, step):
                return

    def call(self, thread, step):
        """Begins the call of a step. Returns whether it was answered."""
        asked = self.asked(thread, step)
        if asked is None:
            return False
        text, host, command = asked
        self.say(thread.number, f"B {text}")
        thread.open = (step, host, command)
        thread.began = self.now
        return self.attempt(thread)

    def asked(self, thread, step):
        """A call in the trace's form, its host, and the call in the driver's form."""
        word, args = step.word, step.args
        if word == "listen":
            backlog = step.options.get("backlog", "8")
            return f"listen {thread.host} {args[0]} {backlog}", thread.host, f"listen {args[0]} {backlog}"
        if word == "open":
            return f"open {thread.host} {args[0]} {args[1]}", thread.host, f"open {args[0]} {args[1]}"
        number = self.names.get(args[0])
        if number is None:
            return None
        host, handle = self.handles[number]
        more = ""
        if word == "send":
            count = min(int(args[1]) - thread.told, step.options.get("by", LONGEST_CALL))
            more = " " + stream(self.sent.get(number, 0), count, host).hex()
        elif word == "recv":
            most = step.options.get("by", LONGEST_CALL)
            most = most if args[1] == "eof" else min(int(args[1]) - thread.told, most)
            more = f" {most}"
        return f"{word} {number}{more}", host, None if number in self.dead else f"{word} {handle}{more}"

    def attempt(self, thread):
        """Tries an open call. Returns whether it was answered."""
        step, host, command = thread.open
        number = self.names.get(step.args[0]) if step.word not in ("listen", "open") else None
        answer = self.told_again(number, step.word, self.ask(host, command)) if command else "badsocket"
        if answer == "again" and step.word in ("await", "accept", "send", "recv") and "again" not in step.expected:
            return False
        thread.open = None
        answer = self.count_and_name(thread, step, number, answer)
        self.say(thread.number, f"E {answer}")
        self.go_on(thread, step, answer)
        return True

    def told_again(self, number, word, answer):
        """Repeats a fault that the stack reports only once."""
        if answer in FAULTS:
            self.faults.setdefault(number, answer)
        elif number in self.faults and word in TELLING and not answer.startswith(("data", "eof")):
            return self.faults[number]
        return answer

    def count_and_name(self, thread, step, number, answer):
        """The answer with the trace's socket numbers. Counts bytes and assigns names."""
        word = step.word
        if word in ("listen", "open", "accept") and answer.startswith("ok "):
            host = thread.host if word != "accept" else self.handles[number][0]
            self.last_number += 1
            fresh, handle = self.last_number, int(answer.split()[1])
            self.handles[fresh] = (host, handle)
            self.names[step.options["as"]] = fresh
            return f"ok {fresh}"
        if word == "send" and answer.startswith("ok "):
            self.sent[number] = self.sent.get(number, 0) + int(answer.split()[1])
            thread.told += int(answer.split()[1])
        elif word == "recv" and answer.startswith("data "):
            count = len(answer) // 2 - 2
            self.received[number] = self.received.get(number, 0) + count
            thread.told += count
        elif word in ("close", "abort") and answer == "ok":
            self.dead.add(number)
        return answer

    def go_on(self, thread, step, answer):
        """Advances a thread after an answer."""
        done = True
        word = answer.split()[0]
        if step.word == "send" and word == "ok":
            done = thread.told >= int(step.args[1])
        elif step.word == "recv" and word == "data":
            done = step.args[1] != "eof" and thread.told >= int(step.args[1])
        if "each" in step.options and word in ("ok", "data"):
            thread.ready = self.now + step.options["each"]
            self.at(thread.ready, "wake")
        if not done:
            return
        thread.at += 1
        thread.told = 0
        usual = {"recv": "eof" if step.args[-1] == "eof" else "data", "status": "state"}.get(step.word, "ok")
        expected = step.expected or (usual,)
        found = answer.split()[1] if word == "state" and step.expected else word
        if "any" not in expected and found not in expected:
            self.blame(thread, step, f"{step.word} returned {found}, not {' or '.join(expected)}")
        elif self.now - thread.began < step.options.get("lasted", 0):
            self.blame(thread, step, f"{step.word} returned {found} too early")

    def blame(self, thread, step, text):
        where = "peer" if thread is None else f"thread {thread.number}"
        self.unexpected.append(f"{where}, line {step.line}: {text}")
        if thread is not None:
            thread.ended = True

    def serve(self):
        """Tries open calls and runs threads until nothing changes."""
        moved = True
        while moved:
            moved = False
            for thread in self.threads:
                before = (thread.at, thread.told, thread.ended, thread.open is None)
                if thread.open and not thread.ended:
                    self.attempt(thread)
                self.begin(thread)
                moved |= before != (thread.at, thread.told, thread.ended, thread.open is None)
            if self.peer:
                moved |= self.peer.go_on()

    # ---- time ----

    def is_over(self):
        threads = all(thread.ended or thread.at == len(thread.steps) for thread in self.threads)
        return threads and (not self.peer or self.peer.is_over())

    def next_event(self):
        """The moment of the next event, and the host if it is a tick, else None."""
        found = (self.events[0][0], None) if self.events else (None, None)
        for host in self.hosts:
            if host.next is not None and (found[0] is None or host.next < found[0]):
                found = (max(host.next, self.now), host.number)
        return found

    def step(self, limit):
        moment, ticks = self.next_event()
        if moment is None or moment > limit:
            return False
        self.watch.left(f"at {moment} µs of its clock")
        self.now = max(self.now, moment)
        if ticks is not None:
            self.ask(ticks, "tick")
        else:
            _, _, deed, what = heapq.heappop(self.events)
            if deed == "come":
                self.come(*what)
        self.serve()
        self.count += 1
        if self.count < self.watch.limits.events:
            return True
        self.end_early()
        return False

    def end_early(self):
        """After too many events, keeps only the first lines of a storm of acknowledgments."""
        self.early = True
        self.storm = storm(self.lines)
        if self.storm is not None:
            del self.lines[self.storm + KEPT:]
            self.now = int(self.lines[-1].split(" ", 1)[0])

    def start(self):
        for number in (0,) if self.peer else (0, 1):
            host = Host(number, self.command, self.scenario.settings, self.watch)
            self.hosts.append(host)
            host.hello(self.scenario.seed, self.options)
        for at, thread in enumerate(self.threads):
            thread.ready = 1000 * (at + 1)
            self.at(thread.ready, "wake")
        if self.peer:
            self.peer.start()

    def run(self):
        """Runs to the end. The event lines are then in `lines`."""
        try:
            self.start()
            over = None
            while self.step(self.scenario.until if over is None else over):
                if self.is_over() and over is None:
                    over = min(self.now + self.scenario.linger, self.scenario.until)
            self.finish(self.scenario.until if over is None else over)
        finally:
            for host in self.hosts:
                host.end()
        if self.peer:
            self.peer.finish()

    def finish(self, limit):
        """Ends the recording with a call at the last moment that was simulated, so that the trace shows how long
        nothing happened."""
        if not self.early:
            self.now = max(self.now, limit)
        self.say(LAST_THREAD, f"B status {NO_SOCKET}")
        self.say(LAST_THREAD, "E badsocket")

    # ---- results that aren't in the trace ----

    def waiting(self):
        """Calls that never ended."""
        return [f"thread {thread.number}: {thread.open[0].word} {' '.join(thread.open[0].args)}"
                for thread in self.threads if thread.open]

    def stuck(self):
        """Threads that wait for something that never arrived."""
        return [f"thread {thread.number} waits, line {thread.steps[thread.at].line}" for thread in self.threads
                if not thread.open and not thread.ended and thread.at < len(thread.steps)]
