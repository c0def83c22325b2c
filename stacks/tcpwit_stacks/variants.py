"""Variants of a scenario: the same steps with another delay, other losses or another seed.

A variant's name is the scenario's with a suffix: `data-bulk+delay-0.13`, `data-bulk+loss-5+seed-2`.
"""
import copy
import re

from .scenarios import FIXABLE, Fault, number, seconds

MARK = "+"
# The suffixes of the variants that --vary adds.
USUAL = ("+delay-0.13", "+delay-0.7", "+seed-2", "+loss-5", "+loss-5+seed-2")


def split(word):
    """The name or path of a scenario, and the suffix of its variant, empty if the word has none. A path may have a
    `+` of its own."""
    found = re.search(rf"([+]({'|'.join(FIXABLE)})-[^+/]*)+$", word)
    at = found.start() if found else word.find(MARK, word.rfind("/") + 1)
    return (word, "") if at < 0 else (word[:at], word[at:])


def changes_of(suffix):
    """The changes that a suffix describes: pairs of a word and its value."""
    pairs = [part.partition("-")[::2] for part in suffix.split(MARK)[1:]]
    words = [word for word, _ in pairs]
    if not words or not set(words) <= set(FIXABLE) or len(set(words)) < len(words):
        raise ValueError(f"{suffix} isn't a variant, such as {USUAL[0]} or {USUAL[-1]}")
    return pairs


def is_fit(scenario, suffix):
    """Whether a scenario may be varied so: it has a wire, and fixes none of what the variant changes."""
    return not scenario.peer and not any(word in scenario.fixed for word, _ in changes_of(suffix))


def variant(scenario, suffix):
    """A variant of a scenario."""
    made = copy.copy(scenario)
    made.name, made.path = scenario.name + suffix, scenario.path + suffix
    try:
        changes = changes_of(suffix)
        if scenario.peer:
            raise ValueError("a scripted peer has no wire, so there are no variants")
        for word, value in changes:
            if word in scenario.fixed:
                raise ValueError(f"the scenario has a line `fixed` with {word}")
            setattr(made, word, value_of(word, value))
    except ValueError as fault:
        raise Fault(f"{made.name}: {fault}") from fault
    return made


def value_of(word, value):
    """The value of a scenario's field that a change sets."""
    if word == "delay":
        return seconds(value)
    return number(value, 100) / 100 if word == "loss" else number(value)
