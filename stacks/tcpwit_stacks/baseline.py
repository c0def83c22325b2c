"""The outcomes of an earlier run in a file, what differs from them, and which outcomes are failures."""
import re

from .files import read

# The first line of such a file.
HEAD = ("# The verdict and, in brackets, the rule that refuses the profile's level; then what went wrong apart from "
        "it. stacks/README.md explains the words.\n")


def brief(outcome):
    """An outcome as a line that changes only if the stack does: without the numbers of lines."""
    rule = f" [{outcome.rule()}]" if outcome.rule() else ""
    lost = f" missing {outcome.missing}" if outcome.missing else ""
    waiting = f" open {len(outcome.waiting)}" if outcome.waiting else ""
    unexpected = "; ".join(re.sub(r", line \d+$", "", line.split(": ", 1)[-1]) for line in outcome.unexpected)
    return (f"{outcome.scenario.name}: {outcome.verdict()}{rule}{outcome.but()}{lost}{waiting}"
            f"{f' ({unexpected})' if unexpected else ''}")


def text(outcomes):
    """A file of these outcomes."""
    return HEAD + "".join(brief(outcome) + "\n" for outcome in outcomes)


def known_outcomes(path):
    """The lines of a file of outcomes, keyed by scenario; None without a file."""
    if not path:
        return None
    return {line.split(":")[0]: line for line in read(path).split("\n") if line.strip() and not line.startswith("#")}


def differences(outcomes, known):
    """The outcomes that differ from those in the file."""
    return [f"{brief(outcome)}\n    before: {known.get(outcome.scenario.name, 'nothing')}" for outcome in outcomes
            if brief(outcome) != known.get(outcome.scenario.name)]


def failure(outcome, least, known, remarks_fail=False):
    """Why an outcome is a failure; empty if it isn't one. `known`: the lines of the file of --against, or None.
    `remarks_fail`: remarks are failures, and so are unfinished ones."""
    if known is not None:
        before = known.get(outcome.scenario.name, "nothing")
        if brief(outcome) != before:
            return f"{brief(outcome)} (before: {before})"
    elif not outcome.is_good(least) and not outcome.is_unjudged():
        strict = f" ({outcome.first}: {outcome.refused})" if outcome.refused else ""
        cause = f": {'; '.join(outcome.wrong())}" if outcome.but() else ""
        return outcome.shown() + strict + cause
    if remarks_fail and (outcome.remarks or outcome.unremarked):
        return f"{outcome.shown()}, remarks: {'; '.join(outcome.remarks) or outcome.unremarked}"
    return ""
