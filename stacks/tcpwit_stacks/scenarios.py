"""Scenarios, and the language in which their files are written (LANGUAGE.md)."""
import re
from dataclasses import dataclass, field

KINDS = ("syn", "syn-ack", "data", "fin", "ack", "rst", "any")
CALLS = {"listen": 1, "open": 2, "await": 1, "accept": 1, "send": 2, "recv": 2, "shut": 1, "close": 1, "abort": 1,
         "status": 1}
# What a variant changes; the line `fixed` forbids it.
FIXABLE = ("delay", "loss", "seed")


class Fault(Exception):
    """A scenario that can't be read, with the file, the line and the fault."""


@dataclass
class Rule:
    """What the wire does with certain segments of a host."""
    deed: str            # lose, double, hold
    host: int
    kind: str            # one of KINDS, or "byte"
    byte: int = 0        # of kind "byte": segments that carry this byte of the stream, from 1
    picks: tuple = ()    # which of them, counted from 1; empty: at random or all
    first: int = 0       # all from this one on
    share: float = 0.0   # at random
    time: int = 0        # microseconds by which the copy or the segment is delayed


@dataclass
class Do:
    """One line of a thread or of the peer's script."""
    line: int
    word: str
    args: list
    options: dict = field(default_factory=dict)
    expected: tuple = ()


@dataclass
class Thread:
    number: int
    host: int
    steps: list = field(default_factory=list)


@dataclass
class Scenario:
    name: str
    path: str = ""
    show: str = ""
    by: str = ""
    seed: int = 1
    delay: int = 20000
    loss: float = 0.0                              # the share of segments that a variant loses besides
    until: int = 300_000_000
    linger: int = 2_000_000
    cuts: list = field(default_factory=list)
    rules: list = field(default_factory=list)
    settings: dict = field(default_factory=dict)   # (host, word): number
    threads: list = field(default_factory=list)
    peer: tuple = ()                               # the peer's port, the stack's port
    script: list = field(default_factory=list)
    keeps: bool = True                             # False: bytes may be lost
    fixed: tuple = ()                              # what no variant may change


def seconds(text):
    """A time in seconds, as microseconds."""
    if not re.fullmatch(r"\d+(\.\d{1,6})?", text):
        raise ValueError(f"{text} isn't a time in seconds")
    whole, _, part = text.partition(".")
    return int(whole) * 1_000_000 + int((part + "000000")[:6])


def number(text, most=2**32 - 1):
    """A number up to the greatest that fits where it is used."""
    if not re.fullmatch(r"[0-9]+", text):
        raise ValueError(f"{text} isn't a number")
    if int(text) > most:
        raise ValueError(f"{text} is above {most}")
    return int(text)


def half(text):
    """A 16-bit number: a port, a window, an MSS or a count of bytes."""
    return number(text, 2**16 - 1)


def place(text):
    """A sequence number in a script: a name or a number, optionally with + N or - N."""
    if not re.fullmatch(r"(nxt|iss|una|rcv|irs|edge|[0-9]+)([+-][0-9]+)?", text):
        raise ValueError(f"{text} isn't a sequence number")


def tcp_options(text):
    """The options of a segment as hex."""
    if not re.fullmatch(r"([0-9a-f]{8}){1,10}", text):
        raise ValueError(f"{text} is not 4 to 40 bytes of options in lowercase hex digits, a multiple of 4")


def blocks(text):
    """SACK blocks in a script: pairs of sequence numbers, with commas between them."""
    pairs = [pair.split("..") for pair in text.split(",")]
    if len(pairs) > 4 or any(len(pair) != 2 for pair in pairs):
        raise ValueError(f"{text} isn't one to four blocks, such as irs+537..irs+1073,irs+1609..irs+2145")
    for pair in pairs:
        place(pair[0])
        place(pair[1])


# The values that words of a script's steps may have.
PUT = {"seq": place, "ack": place, "len": half, "win": half, "mss": half, "fill": lambda text: number(text, 255),
       "times": number, "each": seconds, "raw": tcp_options, "to": place, "sack": blocks}
EXPECT = {"within": seconds, "seq": place, "ack": place, "len": half}


def host(text):
    if text not in ("0", "1"):
        raise ValueError(f"{text} isn't a host: 0 or 1")
    return int(text)


def rule(words):
    """lose|double|hold HOST KIND WHICH.. [after|for TIME]"""
    deed, words = words[0], words[1:]
    made = Rule(deed, host(words[0]), words[1])
    words = words[2:]
    if made.kind == "byte":
        made.byte, words = number(words[0]), words[1:]
    elif made.kind not in KINDS:
        raise ValueError(f"{made.kind} isn't a kind of segment")
    if deed != "lose":
        if len(words) < 2 or words[-2] != {"double": "after", "hold": "for"}[deed]:
            raise ValueError("the time is missing")
        made.time, words = seconds(words[-1]), words[:-2]
    if words == ["all"]:
        made.first = 1
    elif len(words) == 2 and words[0] == "from":
        made.first = number(words[1])
    elif len(words) == 1 and words[0].endswith("%"):
        made.share = number(words[0][:-1]) / 100
    else:
        made.picks = tuple(number(word) for word in words)
    if not (made.picks or made.first or made.share):
        raise ValueError("the segment numbers are missing")
    return made


def options(words, known):
    """Pairs of a word and its value. `known`: the words, optionally with a function that checks their values."""
    found = {}
    while words:
        if words[0] not in known or len(words) < 2:
            raise ValueError(f"{words[0]} is not understood here")
        if isinstance(known, dict):
            known[words[0]](words[1])
        found[words[0]], words = words[1], words[2:]
    return found


def call(line, words):
    """A step of a thread: a call, or a wait."""
    expected = ()
    if "is" in words:
        at = words.index("is")
        expected, words = tuple(words[at + 1:]), words[:at]
    word, args = words[0], words[1:]
    if word == "wait":
        return Do(line, word, [seconds(args[0])])
    if word == "after":
        return Do(line, word, [host(args[0]), args[1], number(args[2])])
    if word not in CALLS:
        raise ValueError(f"{word} isn't a call")
    count = CALLS[word]
    need, rest = args[:count], args[count:]
    made = Do(line, word, need, options(rest, ("as", "backlog", "by", "each", "lasted")), expected)
    if word in ("listen", "open", "accept") and "as" not in made.options:
        raise ValueError("a name is missing: as NAME")
    if "by" in made.options:
        made.options["by"] = number(made.options["by"])
    for name in ("each", "lasted"):
        if name in made.options:
            made.options[name] = seconds(made.options[name])
    if len(need) < count:
        raise ValueError("a word is missing")
    if word == "send" or word == "recv" and need[1] != "eof":
        number(need[1])
    for port in need if word in ("listen", "open") else ():
        half(port)
    return made


def act(line, words):
    """A step of the peer's script."""
    word, args = words[0], words[1:]
    if word == "wait":
        return Do(line, word, [seconds(args[0])])
    if word == "put":
        if not re.fullmatch(r"[SFRPAU]+|-", args[0]):
            raise ValueError(f"{args[0]} aren't flags")
        made = Do(line, word, [args[0]], options(args[1:], PUT))
        if "to" in made.options and (not int(made.options.get("len", 0)) or {"seq", "times"} & made.options.keys()):
            raise ValueError("with to, len is needed, and seq and times aren't understood")
        if {"raw", "sack"} <= made.options.keys():
            raise ValueError("raw has all options, so sack isn't understood")
        return made
    if word in ("expect", "never"):
        if args[0] not in KINDS:
            raise ValueError(f"{args[0]} isn't a kind of segment")
        return Do(line, word, [args[0]], options(args[1:], EXPECT))
    if word == "window":
        return Do(line, word, [half(args[0])])
    if word == "acks" and args[0] in ("on", "off"):
        return Do(line, word, [args[0]])
    raise ValueError(f"{word} isn't a word of a script")


def read(name, text):
    """The scenario described by a text."""
    scenario = Scenario(name)
    inside = None
    for at, line in enumerate(text.split("\n"), 1):
        words = line.split("#")[0].split()
        if not words:
            continue
        try:
            if line[0] == " ":
                if inside is None:
                    raise ValueError("a step is outside of a thread")
                inside(at, words)
            else:
                inside = top(scenario, words, line.split("#")[0])
        except (ValueError, IndexError) as fault:
            raise Fault(f"{name}, line {at}: {fault or 'a word is missing'}") from fault
    if not scenario.show or not scenario.by:
        raise Fault(f"{name}: the lines show and by are missing")
    return scenario


def top(scenario, words, line):
    """Parses a line without indentation; returns the function for the steps below it."""
    word, args = words[0], words[1:]
    if word in ("show", "by"):
        setattr(scenario, word, line.split(None, 1)[1].strip())
    elif word == "seed":
        scenario.seed = number(args[0])
    elif word in ("delay", "until", "linger"):
        setattr(scenario, word, seconds(args[0]))
    elif word == "cut":
        scenario.cuts.append((seconds(args[0]), seconds(args[1])))
    elif word in ("lose", "double", "hold"):
        scenario.rules.append(rule(words))
    elif word in ("mss", "window", "iss"):
        scenario.settings[host(args[0]), word] = half(args[1]) if word == "mss" else number(args[1])
    elif word == "bytes-may-be-lost":
        scenario.keeps = False
    elif word == "fixed":
        if not args or not set(args) <= set(FIXABLE):
            raise ValueError(f"fixed {'|'.join(FIXABLE)} ..")
        scenario.fixed = tuple(args)
    elif word == "thread":
        if args[1] != "host":
            raise ValueError("thread N host H")
        thread = Thread(number(args[0]), host(args[2]))
        scenario.threads.append(thread)
        return lambda at, words: thread.steps.append(call(at, words))
    elif word == "peer":
        if args[1] != "to":
            raise ValueError("peer PORT to PORT")
        scenario.peer = (half(args[0]), half(args[2]))
        return lambda at, words: scenario.script.append(act(at, words))
    else:
        raise ValueError(f"{word} is not understood")
    return None
