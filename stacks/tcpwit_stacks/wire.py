"""The wire between two hosts: which segments arrive, when, and what was sent on it before."""
import random

from .segments import RST, SYN


class Wire:
    """Decides which copies of a segment arrive, and when."""

    def __init__(self, scenario):
        self.scenario = scenario
        self.random = random.Random(scenario.seed)
        self.counts = [0] * len(scenario.rules)
        self.bases = {}
        self.waits = {}

    def carries(self, host, segment, byte):
        """Whether a segment has this byte of its host's stream, from 1."""
        base = self.bases.get((host, segment.src, segment.dst))
        if base is None or not segment.payload:
            return False
        first = (segment.seq - base) % 2**32
        return first <= byte < first + len(segment.payload)

    def meant(self, at, rule, host, segment):
        fits = self.carries(host, segment, rule.byte) if rule.kind == "byte" else rule.kind in ("any", segment.kind())
        if rule.host != host or not fits:
            return False
        self.counts[at] += 1
        if rule.share:
            return self.random.random() < rule.share
        return self.counts[at] in rule.picks or bool(rule.first) and self.counts[at] >= rule.first

    def delays(self, host, segment, moment):
        """The delay of each copy of a segment."""
        kind = segment.kind()
        if kind in ("syn", "syn-ack"):
            self.bases[host, segment.src, segment.dst] = segment.seq
        self.waits[host, kind] = self.waits.get((host, kind), 0) + 1
        delay, copies, lost = self.scenario.delay, [], False
        for at, rule in enumerate(self.scenario.rules):
            if not self.meant(at, rule, host, segment):
                continue
            if rule.deed == "lose":
                lost = True
            elif rule.deed == "hold":
                delay += rule.time
            else:
                copies.append(self.scenario.delay + rule.time)
        # Nobody sends a lost reset again, so the losses of a variant spare resets.
        lost |= kind != "rst" and bool(self.scenario.loss) and self.random.random() < self.scenario.loss
        if any(first <= moment < last for first, last in self.scenario.cuts):
            return []
        return copies if lost else [delay, *copies]


class Sent:
    """What was sent so far."""

    def __init__(self):
        self.first = {}      # (host, ports): the number of its last SYN
        self.after = {}      # (host, ports): the number after the last one that was sent

    def is_again(self, host, segment):
        """Whether all of a segment was sent before. Marks it as sent."""
        key, count = (host, segment.src, segment.dst), segment.length()
        if not count or segment.has(RST):
            return False
        after = (segment.seq + count) % 2**32
        if segment.has(SYN) and self.first.get(key) != segment.seq:
            self.first[key] = segment.seq
        elif (self.after.get(key, segment.seq) - after) % 2**32 < 2**31:
            return True
        self.after[key] = after
        return False
