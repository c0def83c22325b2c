"""The levels that are tried, and the version of the texts at each: version 6 reads SACK blocks, but has no `full`."""
import re
from typing import NamedTuple

from ..trace import header as headers
from ..trace.header import FULL, NONE, RECOVERY

# The lines of `judge` that come after those about its yes: what levels refused, and that the case is whole.
LATER = ("Under ", "The case has all ")
# The names of the levels that refused the same as `full`.
OTHERS = re.compile(rf"(?<=^Under {FULL})( and {RECOVERY}|, {RECOVERY} and {NONE})(?=:)")


class Run(NamedTuple):
    """A run of `judge`: the version of its trace, the options for its levels, and whether its yes counts."""
    version: int
    words: list
    counts: bool = True


def runs(version, least, start=None):
    """The runs of `judge` from the level `start` on, or from `least`, the weakest whose yes counts. The second one is
    needed only if the first one has no yes that counts. If the user chose a version, all levels have that."""
    if version or FULL not in (least, start):
        return [Run(version or headers.version_at(start or least), words_of(least, start))]
    below = RECOVERY if least == FULL else least
    return [Run(headers.version_at(FULL), words_of(FULL)),
            Run(headers.version_at(below), words_of(below, RECOVERY if below == NONE else None), least != FULL)]


def words_of(least, start=None):
    """The options for the weakest level whose yes counts, and for the first one."""
    return ["--least", least, *(["--from", start] if start else [])]


def joined(first, second):
    """The lines of two runs. Of the first one, those about `full` count: the second one tries the other levels."""
    said = [OTHERS.sub("", line) for line in first if line.startswith(f"Under {FULL}")]
    place = next((place for place, line in enumerate(second) if line.startswith(LATER)), len(second))
    return [*first[:1], *second[:place], *said, *second[place:]]
