"""The report for a build server, in the form of JUnit."""
from xml.sax.saxutils import escape, quoteattr

from .files import write
from .table import details


def write_report(outcomes, name, path, bad, warned=""):
    """Writes a report. `bad`: why an outcome is a failure; empty if it isn't one. `warned`: the run's warning."""
    failed = sum(bool(bad(outcome)) for outcome in outcomes)
    skipped = sum(outcome.is_unjudged() and not bad(outcome) for outcome in outcomes)
    rows = [f'<?xml version="1.0" encoding="UTF-8"?>\n<testsuite name={quoteattr(name)} tests="{len(outcomes)}" '
            f'failures="{failed}" skipped="{skipped}" time="{sum(outcome.seconds for outcome in outcomes):.3f}">']
    for outcome in outcomes:
        body = escape("\n".join([outcome.scenario.show, outcome.scenario.by, *details(outcome)]))
        rows.append(f'<testcase classname={quoteattr(name)} name={quoteattr(outcome.scenario.name)} '
                    f'time="{outcome.seconds:.3f}">')
        if bad(outcome):
            rows.append(f"<failure message={quoteattr(bad(outcome))}>{body}</failure>")
        elif outcome.is_unjudged():
            rows.append(f"<skipped message={quoteattr(outcome.answer)}/>")
        if outcome.remarks:
            rows.append("<system-out>" + escape("\n".join(outcome.remarks)) + "</system-out>")
        rows.append("</testcase>")
    if warned:
        rows.append(f"<system-out>{escape(warned)}</system-out>")
    write(path, "\n".join(rows) + "\n</testsuite>\n")
