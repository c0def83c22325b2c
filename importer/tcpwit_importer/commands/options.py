"""Options that several commands have, and the types of their values."""
import argparse
import re

from ..problem import Problem, named_file
from ..trace import header as headers


def add_version_and_slack(words, oldest=min(headers.LINES)):
    """The options for the format version, which may be this one or a later one, and for the slack."""
    versions = [version for version in sorted(headers.LINES) if version >= oldest]
    words.add_argument("--version", type=int, choices=versions, help=headers.HELP["version"])
    words.add_argument("--slack", type=slack, metavar="N", help=headers.HELP["slack"])


def add_words_of_judging(words):
    """The options for judging traces."""
    words.add_argument("--no-check", action="store_true", help="judge nothing")
    words.add_argument("--lab", type=named_file, metavar="PATH", help="the program tcpwit_lab, which judges traces")
    words.add_argument("--budget", type=number_within(0, 2**64 - 1), metavar="N",
                       help="how many steps its search spends on going back for one line (default: its own)")
    add_first_level(words, "--congestion")


def add_first_level(words, option):
    """The option for the level that is tried first. The other option names the weakest level whose yes counts."""
    words.add_argument("--from", dest="start", choices=headers.LEVELS,
                       help=f"the level that is tried first, not laxer than {option} (default: that of {option})")


def add_wire(words):
    """The option that says that no offload enlarged segments."""
    words.add_argument("--wire", action="store_true",
                       help="the capture has segments as they were on the wire: offloads were off, or it was made at a "
                       "mirror port. So one above the peer's MSS isn't split, but gets a no (default: only if no "
                       "offload explains the lengths)")


def weakest(options, level, option):
    """The weakest level whose yes counts: that of this option, else the strictest of the version. Refuses a level that
    the version doesn't have, and a first level that is laxer."""
    strictest = headers.strictest(options.version)
    for name, given in ((option, level), ("--from", options.start)):
        if given == headers.FULL != strictest:
            raise Problem(f"format version {options.version} has no level {given}",
                          f"leave out --version, or give {name} {strictest}")
    level = level or strictest
    if options.start and headers.LEVELS.index(options.start) > headers.LEVELS.index(level):
        raise Problem(f"--from {options.start} is laxer than {option} {level}",
                      "leave out --from, or name a stricter level")
    return level


def number_within(least, greatest):
    """An argparse type: whole numbers within limits."""
    def whole(text):
        if not (text.isascii() and text.isdigit()) or not least <= int(text) <= greatest:
            raise argparse.ArgumentTypeError(f"{text!r} isn't a whole number from {least} to {greatest}")
        return int(text)
    return whole


def slack(text):
    """An argparse type: a number of microseconds, or `any`."""
    return text if text == headers.ANY else number_within(0, headers.GREATEST_SLACK)(text)


def moment(text):
    """An argparse type: seconds since 1970, as nanoseconds."""
    if not re.fullmatch(r"[0-9]{1,10}(\.[0-9]{1,9})?", text):
        raise argparse.ArgumentTypeError(f"{text!r} isn't a time in seconds, such as 1764300000.25")
    seconds, _, part = text.partition(".")
    return int(seconds) * 10**9 + int(part.ljust(9, "0"))
