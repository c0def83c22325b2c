"""Outcomes of scenarios: the verdict, what went wrong apart from it, and how both are shown."""
from dataclasses import dataclass, field

# The levels: how much of congestion control is judged, the strictest first.
LEVELS = ("full", "recovery", "none")
FULL = LEVELS[0]
# What a verdict may be, in the order in which verdicts are counted. Each of the first four may be followed by BUT.
VERDICTS = ("yes", *(f"yes at {level}" for level in LEVELS[1:]), "no")
BUT = ", but"


@dataclass
class Outcome:
    """The outcome of one scenario."""
    scenario: object
    answer: str = ""            # yes .., no .., bad .., skipped .., recorded, or broken ..
    level: str = ""             # the strictest level with a yes, whose answer this is; empty if no level has one
    refused: str = ""           # the answer at `first`, if `answer` is a yes at a laxer level
    first: str = FULL           # the profile's level, which is judged first
    why: list = field(default_factory=list)        # after a no at `first`: what is compared, and usual causes
    laxer: list = field(default_factory=list)      # what laxer levels refuse by another rule than `first`
    unexpected: list = field(default_factory=list)
    missing: int = 0            # bytes that were accepted and never read
    waiting: list = field(default_factory=list)    # calls that never ended
    remarks: list = field(default_factory=list)    # the lines of `tcpwit_lab remark`
    unremarked: str = ""        # why the remarks weren't finished; empty if they were
    notes: list = field(default_factory=list)      # what else is shown: the line where a storm began
    said: list = field(default_factory=list)       # the last lines of the stack's standard error
    seconds: float = 0
    lines: int = 0
    resent: bool = False        # a tick had something sent again
    expired: bool = False       # the stack reported that a timer expired

    def is_judged(self):
        """Whether the answer is a yes or a no."""
        return self.answer.startswith(("yes", "no"))

    def is_unjudged(self):
        """Whether there is neither a verdict nor a fault: the adapter can't run the scenario, or nothing is judged."""
        return self.word() in ("skipped", "recorded")

    def wrong(self):
        """What is wrong apart from the verdict, which is then shown with `but`."""
        lost = self.missing and self.scenario.keeps
        return (self.unexpected + [f"never ended: {line}" for line in self.waiting]
                + ([f"{self.missing} bytes were accepted and never read"] if lost else []))

    def is_good(self, least=FULL):
        """Whether this level or a stricter one has a yes, and everything happened as the scenario expects."""
        is_yes = self.answer.startswith("yes") and self.level in LEVELS[:LEVELS.index(least) + 1]
        return is_yes and not self.wrong()

    def verdict(self):
        """The verdict alone: one of VERDICTS, or another word."""
        first = self.answer.split()[0] if self.answer else "broken"
        return f"yes at {self.level}" if first == "yes" and self.level != FULL else first

    def but(self):
        """What is shown after a verdict if something else is wrong."""
        return BUT if self.is_judged() and self.wrong() else ""

    def word(self):
        """The verdict, with or without `but`."""
        return self.verdict() + self.but()

    def shown(self):
        """The verdict with the numbers of its answer, as tables and reports show it."""
        _, space, numbers = self.answer.partition(" ")
        return self.verdict() + space + numbers + self.but()

    def rule(self):
        """The rule that refuses the profile's level; empty if it has a yes or nothing was judged."""
        strict = self.refused or self.answer
        return strict.split()[-1] if strict.startswith("no ") else ""
