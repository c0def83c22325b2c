"""The profile of a stack, and the header of its traces."""
import re

from .outcomes import FULL, LEVELS

# The versions of the traces: at `full`, and at the other levels, which version 6 judges with SACK. Only this module
# chooses them.
PLAIN, WITH_SACK = 5, 6
HEADER = ("msl", "grain", "minrto", "extra", "initial")
# The lines that only version 6 has.
SENDERS = ("sender", "growth")
# The values of a stack if its profile has none. The clock is simulated, so a slack of 20 ms is enough for a stack whose
# timers are on time.
USUAL = {"name": "a stack", "msl": "120000000", "grain": "1000", "minrto": "0", "extra": "65535", "initial": "5681",
         "slack": "20000", "sender": "reno", "growth": "1", "level": FULL, "expiries": "some", "options": ""}
# How the values are written, and what is said of others.
NUMBER = ("[0-9]+", "isn't a number")
FORMS = {**dict.fromkeys(HEADER, NUMBER), "slack": ("[0-9]+|any", "is neither a number nor any"),
         "sender": ("reno|cubic", "is neither reno nor cubic"), "growth": ("1|2|any", "is none of 1, 2, any"),
         "level": ("|".join(LEVELS), f"is none of {', '.join(LEVELS)}"),
         "expiries": ("all|some", "is neither all nor some")}


def profile(text, path="profile"):
    """The header's values and the name, from lines of a word and a value; the usual ones if there are none. `path` is
    the text's file."""
    values = dict(USUAL)
    for line in text.split("\n"):
        word, _, value = line.split("#")[0].strip().partition(" ")
        if word:
            if word not in values:
                raise ValueError(f"{path}: {word} isn't a word of a profile")
            values[word] = value.strip()
            form, fault = FORMS.get(word, (".*", ""))
            if not re.fullmatch(form, values[word]):
                raise ValueError(f"{path}: {word} {values[word]!r} {fault}")
    return values


def shown_expiries(values, half):
    """The option of `tcpwit_lab find` and `judge` for a stack that reports every expiry of its timers: the search then
    adds none at the hosts that are recorded. Empty if it may report only some."""
    return ["--expiries", "0" if half else "0,1"] if values["expiries"] == "all" else []


def header_of(values, half, level):
    """The lines of a trace's header. `half`: only host 0 is recorded; `level`: how much of congestion control is
    judged."""
    lines, last = [[f"{name} {values[name]}" for name in names] for names in (HEADER, SENDERS)]
    head = [f"trace {PLAIN if level == FULL else WITH_SACK}", "skew 0", *lines, f"hosts {1 if half else 2}",
            f"congestion {level}", f"slack {values['slack']}"]
    return head if level == FULL else head + last


def trace_of(values, half, lines, level):
    """The trace as text."""
    return "\n".join(header_of(values, half, level) + lines) + "\n"
