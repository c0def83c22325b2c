"""The table: a row for each scenario, the lines below it, and the sums."""
from .files import say
from .outcomes import BUT, VERDICTS

# How much of a verdict fits into the table, and the least width of the column of names.
WIDTH, NAMES = 39, 34
MEANING = ("but: something went wrong apart from the verdict, as the lines below the row show; a yes doesn't promise "
           "progress")


def details(outcome, verbose=False):
    """The lines below a row of the table."""
    found = [outcome.shown()] if len(outcome.shown()) > WIDTH else []
    if verbose:
        found += [f"shows: {outcome.scenario.show}", f"by: {outcome.scenario.by}",
                  f"{outcome.lines} lines in {outcome.seconds:.2f} s", *outcome.remarks]
    found += [f"{outcome.first}: {outcome.refused}"] if outcome.refused else []
    found += outcome.why + outcome.laxer + outcome.wrong() + outcome.notes
    found += [outcome.unremarked] if outcome.unremarked else []
    return found + (outcome.said if verbose or outcome.word() == "broken" else [])


def width_of(names):
    """The width of the column that shows these names."""
    return max([NAMES, *map(len, names)])


def show_head(names=NAMES):
    """Prints the head of the table. `names`: the width of the column of names."""
    say(f"{'scenario':{names}} {'verdict':{WIDTH}} {'missing':>8} {'open':>5} {'remarks':>8}")


def show(outcome, verbose, names=NAMES):
    """Prints a row of the table and the lines below it."""
    remarks, verdict = "?" if outcome.unremarked else len(outcome.remarks), outcome.shown()[:WIDTH]
    say(f"{outcome.scenario.name:{names}} {verdict:{WIDTH}} {outcome.missing:8} {len(outcome.waiting):5} {remarks:>8}")
    for line in details(outcome, verbose):
        say(f"    {line[:200]}")


def show_sums(outcomes):
    """Prints the lines below the table."""
    words = [outcome.word() for outcome in outcomes]
    order = [word + but for word in VERDICTS for but in ("", BUT)]
    kinds = [word for word in dict.fromkeys(order + words) if word in words and word != "skipped"]
    say("; ".join(f"{words.count(word)} {word}" for word in kinds) or "nothing was judged")
    if "skipped" in words:
        say(f"{words.count('skipped')} of {len(words)} scenarios were skipped, since the adapter can't run them")
    if any(word.endswith(BUT) for word in words):
        say(MEANING)
    remarked = [len(outcome.remarks) for outcome in outcomes if outcome.remarks]
    if remarked:
        has = "has" if len(remarked) == 1 else "have"
        say(f"{len(remarked)} of {len(words)} scenarios {has} remarks, {sum(remarked)} in all; -v prints them")


def warning(outcomes):
    """The warning for an adapter that reports no expired timer; empty if it reports one, or if nothing shows that it
    should."""
    resent = [outcome for outcome in outcomes if outcome.resent]
    if not resent or any(outcome.expired for outcome in resent):
        return ""
    return (f"warning: the stack retransmitted at a tick in {len(resent)} of {len(outcomes)} scenarios, but the "
            "adapter reported no expired timer. A missing back-off can go unnoticed, and a no can be false. Report "
            "each expiry with stack_expired or the line `expired`: stacks/README.md, \"The adapter's protocol\".")
