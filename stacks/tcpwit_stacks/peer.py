"""A scripted peer: host 1 of a half case. It sends the segments of a script and sees those of host 0."""
import re

from .scenarios import seconds
from .segments import ACK, LETTERS, RST, SYN, Segment, stream, write

WAIT = 5_000_000


class Peer:
    def __init__(self, run):
        self.run = run
        self.port, self.other = run.scenario.peer
        self.script = run.scenario.script
        self.at = self.ready = self.times = 0
        self.iss = run.scenario.settings.get((1, "iss"), 4_000_000_000)
        self.nxt = self.iss
        self.irs = self.rcv = None
        self.una = None            # the greatest acknowledgment received
        self.edge = None           # the end of the window that the stack offers
        self.shifts = [None, None] # the window shifts in the stack's SYN and in the script's
        self.target = None         # the end of the bytes that a `put` with `to` sends
        self.window = 65535
        self.acks = False
        self.arrived = []          # segments that no `expect` has examined
        self.deadline = None

    def start(self):
        self.ready = 500
        self.run.at(self.ready, "wake")

    def is_over(self):
        return self.at == len(self.script)

    # ---- receiving ----

    def take(self, segment):
        if segment.dst != self.port:
            return
        self.arrived.append(segment)
        if segment.has(SYN) and not segment.has(RST):
            self.irs = segment.seq
            self.rcv = (segment.seq + 1) % 2**32
            self.shifts[0] = segment.shift()
        elif self.rcv is not None and segment.seq == self.rcv:
            self.rcv = (self.rcv + segment.length()) % 2**32
        if segment.has(ACK) and not segment.has(RST):
            self.una = segment.ack
            self.edge = (segment.ack + self.offered(segment)) % 2**32
        if self.acks and segment.length() and not segment.has(RST):
            self.send("A", {})

    def offered(self, segment):
        """The window that a segment offers. That of a SYN isn't scaled (RFC 7323, 2.2)."""
        return segment.window if segment.has(SYN) or None in self.shifts else segment.window << self.shifts[0]

    # ---- sending ----

    def number(self, text, default):
        """nxt, iss, una, rcv, irs, edge or a number, optionally with + N or - N."""
        if text is None:
            return default
        base, sign, more = re.fullmatch(r"([a-z]+|\d+)(?:([+-])(\d+))?", text).groups()
        value = int(base) if base.isdigit() else getattr(self, base)
        more = int(more or 0) * (-1 if sign == "-" else 1)
        return ((value or 0) + more) % 2**32

    def blocks(self, text):
        """The option with these SACK blocks."""
        places = [place for pair in text.split(",") for place in pair.split("..")]
        return bytes([1, 1, 5, 2 + 4 * len(places)]) + b"".join(
            self.number(place, 0).to_bytes(4, "big") for place in places)

    def send(self, letters, options):
        flags = sum(LETTERS[letter] for letter in letters if letter != "-")
        count = int(options.get("len", 0))
        own = "seq" not in options
        seq = self.number(options.get("seq"), self.nxt)
        ack = self.number(options.get("ack"), self.rcv or 0) if flags & ACK or "ack" in options else 0
        first = (seq + bool(flags & SYN) - self.iss - 1) % 2**32
        payload = stream(first, count, 1)
        if "fill" in options:
            payload = bytes([int(options["fill"])]) * count
        extra = b""
        if "raw" in options:
            extra = bytes.fromhex(options["raw"])
        elif flags & SYN:
            extra = bytes([2, 4]) + int(options.get("mss", 536)).to_bytes(2, "big")
        extra += self.blocks(options["sack"]) if "sack" in options else b""
        window = int(options.get("win", self.window))
        segment = Segment(self.port, self.other, seq, ack, flags, window, extra, payload)
        if flags & SYN:
            self.shifts[1] = segment.shift()
        if own and not flags & RST:
            self.nxt = (self.nxt + segment.length()) % 2**32
        self.run.at(self.run.now + self.run.scenario.delay, "come", 0, write(segment).hex())

    # ---- the script ----

    def go_on(self):
        """Does the steps of the script that are due. Returns whether there were any."""
        moved = False
        while self.at < len(self.script) and self.ready <= self.run.now:
            step = self.script[self.at]
            if not getattr(self, f"do_{step.word}")(step):
                break
            self.at += 1
            self.deadline = None
            moved = True
        return moved

    def pause(self, time):
        self.ready = self.run.now + time
        self.run.at(self.ready, "wake")

    def do_wait(self, step):
        self.pause(step.args[0])
        return True

    def do_window(self, step):
        self.window = step.args[0]
        return True

    def do_acks(self, step):
        self.acks = step.args[0] == "on"
        return True

    def is_known(self, text):
        """Whether a number doesn't depend on a segment of the stack that hasn't arrived yet."""
        return text[0].isdigit() or getattr(self, re.match("[a-z]+", text).group()) is not None

    def do_put(self, step):
        end = step.options.get("to")
        if end and not self.is_known(end):
            self.run.blame(None, step, f"{end} isn't known yet")
            return True
        if not self.times:
            self.target = self.number(end, None)
        self.times += 1
        more = self.put_up_to_target(step) if end else self.put_again(step)
        if more:
            self.pause(seconds(step.options.get("each", "0.001")))
            return False
        self.times = 0
        return True

    def put_again(self, step):
        """Sends a segment. Returns whether it is to be sent again."""
        self.send(step.args[0], step.options)
        return self.times < int(step.options.get("times", 1))

    def put_up_to_target(self, step):
        """Sends a segment that ends at most at the target. Returns whether bytes are left."""
        left, most = (self.target - self.nxt) % 2**32, int(step.options["len"])
        if not 0 < left < 2**31:
            return False
        self.send(step.args[0], {**step.options, "len": min(left, most)})
        return left > most

    def fits(self, step, segment):
        kind, options = step.args[0], step.options
        return (kind in ("any", segment.kind())
                and ("seq" not in options or segment.seq == self.number(options["seq"], 0))
                and ("ack" not in options or segment.ack == self.number(options["ack"], 0))
                and ("len" not in options or len(segment.payload) == int(options["len"])))

    def found(self, step):
        while self.arrived:
            if self.fits(step, self.arrived.pop(0)):
                return True
        return False

    def is_late(self, step):
        if self.deadline is None:
            self.deadline = self.run.now + (seconds(step.options["within"]) if "within" in step.options else WAIT)
            self.run.at(self.deadline, "wake")
        return self.run.now >= self.deadline

    def do_expect(self, step):
        if self.found(step):
            return True
        if self.is_late(step):
            self.run.blame(None, step, f"no {step.args[0]} arrived")
            return True
        return False

    def do_never(self, step):
        if self.found(step):
            self.run.blame(None, step, f"a segment of kind {step.args[0]} arrived")
            return True
        return self.is_late(step)

    def finish(self):
        if self.at < len(self.script):
            self.run.blame(None, self.script[self.at], "the script was not finished")
