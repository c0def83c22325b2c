"""The header of a trace. Only this module chooses the version and the kernel settings that go with it."""
from ..problem import Problem

# The version of a trace that is judged at `full`, unless the user chooses another.
VERSION = 5
# The version at the levels below. It reads SACK blocks. It doesn't judge congestion windows yet, so it has no `full`.
WITH_SACK = 6
KERNEL = "plain"

# The levels: how much of congestion control is judged, from all of it down to nothing.
FULL, RECOVERY, NONE = LEVELS = ("full", "recovery", "none")
STRICTEST = f"(default: {FULL}; with --version {WITH_SACK}, {RECOVERY})"
# The sender and its growth are Linux's. They have an effect only at `full`.
VALUES = {"skew": 0, "msl": 60_000_000, "grain": 4000, "minrto": 200_000, "extra": 1, "initial": 6928,
          "slack": 1_000_000, "sender": "cubic", "growth": "any"}
ANY = "any"
GREATEST_SLACK = 10**18
LIMITS = {"skew": (0, 10**9), "msl": (1, 3_600_000_000), "grain": (0, 60_000_000), "minrto": (0, 60_000_000),
          "extra": (0, 65535)}
WORDS = {"initial": ("5681", "6928"), "congestion": LEVELS}
HELP = {
    "skew": "largest remaining clock error, in microseconds",
    "msl": "maximum segment lifetime, in microseconds",
    "grain": "granularity of the retransmission timer, in microseconds",
    "minrto": "minimum retransmission timeout, in microseconds",
    "extra": "children that a listen queue holds beyond its backlog",
    "initial": "RFC of the initial congestion window",
    "congestion": f"how much of congestion control is judged {STRICTEST}",
    "slack": f"how late a host may be with its duties, in microseconds; {ANY}: duties aren't judged "
             f"(default: {VALUES['slack']})",
    "version": f"format version (default: {VERSION} for the level {FULL}, and {WITH_SACK}, which reads SACK blocks and "
               f"has no {FULL}, for the others)",
}
LINES = {
    1: ("skew", "msl", "grain", "minrto", "extra"),
    2: ("skew", "msl", "grain", "minrto", "extra", "initial"),
    3: ("skew", "msl", "grain", "minrto", "extra", "initial", "half"),
    4: ("skew", "msl", "grain", "minrto", "extra", "initial", "hosts", "congestion"),
    5: ("skew", "msl", "grain", "minrto", "extra", "initial", "hosts", "congestion", "slack"),
    6: ("skew", "msl", "grain", "minrto", "extra", "initial", "hosts", "congestion", "slack", "sender", "growth"),
}


def version_at(level=None):
    """The version of a trace that is judged at a level, unless the user chooses another."""
    return VERSION if level in (None, FULL) else WITH_SACK


def strictest(version=None):
    """The strictest level of a version."""
    return RECOVERY if version == WITH_SACK else FULL


def header(hosts, skew, chosen, version=None):
    """The lines of a header for this many recorded hosts. The values of `chosen` replace detected and default ones."""
    version = version or version_at(chosen.get("congestion"))
    if hosts == 1 and version < 3:
        raise Problem(f"format version {version} is for two recorded hosts",
                      "leave out --version, or give the capture and calls of host 1",
                      "leave out --version, or record both hosts")
    if hosts == 2 and version == 3:
        raise Problem("format version 3 is for one recorded host", "leave out --version, or give only files of host 0",
                      "leave out --version")
    values = VALUES | {"skew": skew, "half": 0, "hosts": hosts, "congestion": strictest(version)} | chosen
    unknown = [name for name in chosen if name not in LINES[version]]
    if unknown:
        raise Problem(f"format version {version} has no line {unknown[0]}", f"leave out --{unknown[0]}, or --version")
    return [f"trace {version}"] + [f"{name} {values[name]}" for name in LINES[version]]


def in_version(version, lines):
    """The lines of a header in another version."""
    values = VALUES | dict(line.split() for line in lines[1:]) | {"congestion": strictest(version)}
    return [f"trace {version}"] + [f"{name} {values[name]}" for name in LINES[version]]
