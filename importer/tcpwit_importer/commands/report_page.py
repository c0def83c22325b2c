"""The page `index.html` of a report: a table of the connections, and the packets around what was refused."""
import os
from html import escape
from urllib.parse import quote

from ..files import write_file
from ..problem import counted, plain
from .page_style import STYLE
from .stats import ENDS, rows
from .wireshark import named, seconds

NAME = "index.html"
HEAD = """<!doctype html>
<html lang="en">
<head>
<meta charset="utf-8">
<meta name="viewport" content="width=device-width, initial-scale=1">
<title>tcpwit-judge: {title}</title>
<style>
{style}</style>
</head>
<body>
<h1>{title}</h1>
"""
COLUMNS = ("No.", "Connection", "Begins at", "Packets", "Verdict", "Reason")
FILES = {".trace": "trace", ".case": "case", ".svg": "picture of all packets", ".txt": "explanation"}
NUMBERS = "Packets, times and sequence numbers are those that Wireshark shows."


def text(words):
    """A text in HTML."""
    return escape(plain(str(words)))


class Page:
    """The page of a report in a folder; `title` names the captures. Rows and sections are kept until it's written."""

    def __init__(self, folder, title):
        self.folder, self.title, self.rows, self.sections = folder, title, [], []

    def add(self, result):
        """Adds a connection. It has a section if something was refused, or if it has figures."""
        number = len(self.rows) + 1
        refused = [refusal for refusal in result.refusals if refusal]
        self.rows.append(row(number, result, refused))
        if refused or result.figures:
            self.sections.append(section(number, result, refused))

    def write(self, summary):
        """Writes the page, which begins with these sentences."""
        head = HEAD.format(title=text(self.title), style=STYLE)
        about = "".join(f"<p>{text(line)}</p>\n" for line in (summary, NUMBERS))
        columns = "".join(f"<th scope=\"col\">{name}</th>" for name in COLUMNS)
        table = f"<table class=\"connections\">\n<thead><tr>{columns}</tr></thead>\n<tbody>\n"
        parts = [head, about, table, *self.rows, "</tbody>\n</table>\n", *self.sections, "</body>\n</html>\n"]
        write_file(os.path.join(self.folder, NAME), (part.encode(errors="replace") for part in parts))


def row(number, result, refused):
    """A connection's row of the table."""
    begins = "" if result.start is None else seconds(result.start)
    said = text(result.reason) if not result.levels else \
        f"<a href=\"#c{number}\">{text(refused[-1].sentence)}</a>" if refused else ""
    name = f"<a href=\"#c{number}\">{text(result.name)}</a>" if result.figures else text(result.name)
    cells = (str(number), name, begins, str(result.segments), verdict(result), said)
    columns = "".join(f"<td data-name=\"{name}\">{cell}</td>" for name, cell in zip(COLUMNS, cells))
    return f"<tr class=\"{result.verdict or 'none'}\">{columns}</tr>\n"


def verdict(result):
    """A connection's verdict, with a link to its explanation."""
    if not result.levels:
        return "not judged"
    return link(result.files[-1], f"{result.verdict} ({result.answer['level']})")


def link(name, words):
    """A link to a file of the report."""
    return f"<a href=\"{quote(os.path.basename(name))}\">{text(words)}</a>"


def section(number, result, refused):
    """What was refused of a connection: the levels with their reasons, and the packets around; and its figures."""
    parts = [f"<section id=\"c{number}\">\n<h2>{number}. {text(result.name)}</h2>\n",
             levels(result) if refused else "", links(result), figures(result)]
    for place, rungs in result.ladders.items():
        parts.append(ladder(result, [refusal for refusal in refused if refusal.place == place], rungs))
    return "".join(parts) + "</section>\n"


def levels(result):
    """The levels with their reasons. Levels with the same one share a row."""
    found = {}
    for level, refusal in zip(result.levels, result.refusals):
        found.setdefault((level["answer"], f"{refusal.sentence}." if refusal else ""), []).append(level["level"])
    rows = (f"<tr class=\"{answer}\"><th scope=\"row\">{', '.join(names)}</th><td>{answer}</td><td>{text(said)}</td>"
            "</tr>\n" for (answer, said), names in found.items())
    return "<table class=\"levels\">\n" + "".join(rows) + "</table>\n"


def links(result):
    """The filter of Wireshark for a connection, and links to its files."""
    ends = [end.rpartition(":")[::2] for end in (result.client, result.server)]
    kind = "ipv6" if ends[0][0].startswith("[") else "ip"
    words = [f"{kind}.addr == {address.strip('[]')} && tcp.port == {port}" for address, port in ends]
    files = ", ".join(link(name, FILES[os.path.splitext(name)[1]]) for name in result.files)
    return f"<p>Filter: <code>{text(' && '.join(words))}</code></p>\n" + (f"<p>Files: {files}</p>\n" if files else "")


def figures(result):
    """The figures of a connection's ends."""
    if not result.figures:
        return ""
    head = "".join(f"<th scope=\"col\">{text(words)}</th>" for words in ("", *ENDS))
    body = "".join(f"<tr><th scope=\"row\">{text(name)}</th>{''.join(f'<td>{text(value)}</td>' for value in values)}"
                   "</tr>\n" for name, values in rows(result.figures))
    return f"<table class=\"figures\">\n<thead><tr>{head}</tr></thead>\n<tbody>\n{body}</tbody>\n</table>\n"


def ladder(result, refused, rungs):
    """The packets around a refused one, each with an arrow."""
    place = refused[0].place
    about = f"Around {named(place, result.captures)}"
    ends = f"<tr><th>No.</th><th>Time</th><th class=\"ends\"><span>{text(result.client)}</span>" \
        f"<span>{text(result.server)}</span></th></tr>\n"
    return f"<h3>{text(about)}</h3>\n<table class=\"ladder\">\n<thead>{ends}</thead>\n<tbody>\n" + \
        "".join(rung_row(rung, refused) for rung in rungs) + "</tbody>\n</table>\n"


def rung_row(rung, refused):
    """A packet of a ladder, with what was refused there or what is owed since."""
    notes = [refusal.sentence for refusal in refused if refusal.place == rung.place]
    notes += [f"{'here' if refusal.owed.begun_there else 'after this'}, the duty begins that is late"
              for refusal in refused if refusal.owed and refusal.owed.place == rung.place]
    said = "".join(f"<p class=\"note\">{text(note)}</p>" for note in dict.fromkeys(notes))
    gap = f"<tr class=\"gap\"><td colspan=\"3\">{counted(rung.skipped, 'packet')} not shown</td></tr>\n" \
        if rung.skipped else ""
    kind = " class=\"marked\"" if notes else ""
    arrow = "right" if rung.by_client else "left"
    return f"{gap}<tr{kind}><td>{rung.place.count}</td><td>{seconds(rung.place.time)[:-2]}</td>" \
        f"<td class=\"lane\">{text(rung.info)}<div class=\"{arrow}\"></div>{said}</td></tr>\n"
