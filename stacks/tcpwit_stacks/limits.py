"""How much time a run may take."""
import time
from dataclasses import dataclass


class Broken(Exception):
    """A scenario that can't be judged, because the stack's process failed or took too long."""


@dataclass
class Limits:
    """Seconds for a command, a scenario and the run, and the events of a scenario."""
    command: float = 5
    scenario: float = 60
    run: float = 3600
    events: int = 20_000


class Watch:
    """The time left for a scenario: its own, or that of the run, which ends at `run_end`."""

    def __init__(self, limits, run_end):
        self.limits = limits
        self.until = min(time.monotonic() + limits.scenario, run_end)
        what, limit = ("run", limits.run) if self.until == run_end else ("scenario", limits.scenario)
        self.cause = f"the {what} took more than {limit:g} s"

    def left(self, where):
        """How many seconds are left; raises Broken if none are. `where`: what is being done."""
        left = self.until - time.monotonic()
        if left <= 0:
            raise Broken(f"{self.cause}, {where}")
        return left
