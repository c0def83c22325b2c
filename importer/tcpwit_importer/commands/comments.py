"""The comments on the packets that an answer names, and on retransmissions."""
from .rules import described

PROGRAM = "tcpwit-judge"


class Comments:
    """The comments of each capture: for each packet's number, its texts."""

    def __init__(self):
        self.of = {}

    def add(self, capture, count, words):
        """Adds a comment, unless the packet has the same one already."""
        texts = self.of.setdefault(capture, {}).setdefault(count, [])
        if (text := f"{PROGRAM}: {words}") not in texts:
            texts.append(text)

    def add_result(self, result):
        """Adds the comments on the packets of a connection."""
        for (capture, count), words in result.retransmissions.items():
            self.add(capture, count, words)
        refused = {}
        for refusal in filter(None, result.refusals):
            refused.setdefault((refusal.sentence, refusal.rule), (refusal, []))[1].append(refusal.level)
        for refusal, levels in refused.values():
            self.add_refusal(refusal, ", ".join(levels))

    def add_refusal(self, refusal, levels):
        """Adds what levels refused, and which duty began before."""
        place, rule = refusal.place, described(refusal.rule)
        said = f"{'this packet' if refusal.is_refused else refusal.subject}{refusal.reason}"
        self.add(place.capture, place.count, f"no ({levels}): {said} [{rule}]")
        if (owed := refusal.owed) and owed.place != place:
            where = "here" if owed.begun_there else "after this packet"
            self.add(owed.place.capture, owed.place.count,
                     f"no ({levels}): {where}, a duty begins that is late{refusal.reason} [{rule}]")
