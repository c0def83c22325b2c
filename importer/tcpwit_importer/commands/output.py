"""What the command prints: a line for each connection, and a summary."""
import json

from ..problem import counted, plain
from .comments import Comments
from .report_page import Page
from .stats import lines, members
from .wireshark import SECOND

INFERRED = ("Calls were inferred: their answers aren't judged.",
            "Nor is how soon a host sends what its program gave it (rule start-late).")
BETWEEN = ("{} no duty is judged. A segment counts as received at any moment after", "it passed, or never.")
HALF = "Only one host was captured: the other one isn't judged."
SOME = "{} with one host captured: the other one isn't judged there."


class Output:
    """Prints results in their order and counts them. `names` has the names of all connections, if they are known, to
    align the lines."""

    def __init__(self, options, names=()):
        self.options, self.width = options, max(map(len, names), default=0)
        self.count = self.yes = self.no = self.half = self.between = self.status = 0
        self.comments = Comments()
        title = "standard input" if options.files == ["-"] else ", ".join(options.files)
        self.page = Page(options.report, title) if options.report else None

    def add(self, result):
        """Prints a connection's result."""
        self.count += 1
        self.yes += result.verdict == "yes"
        self.no += result.verdict == "no"
        self.half += result.hosts == 1 and result.verdict is not None
        self.between += result.is_between and result.verdict is not None
        self.status = max(self.status, result.status)
        if self.options.annotate:
            self.comments.add_result(result)
        if self.page:
            self.page.add(result)
        print(json.dumps(facts(result)) if self.options.json else plain(f"{result.name:<{self.width}}   {result.line}"),
              flush=True)
        if self.options.stats and not self.options.json:
            print(*lines(result.figures), sep="\n", end="\n" * bool(result.figures), flush=True)

    def finish(self):
        """Prints the summary, unless each line is an object, writes the report's page, and returns the exit status."""
        summary = self.summary()
        if not self.options.json:
            print("\n".join(summary))
        if self.page:
            self.page.write(" ".join(summary))
        return self.status if self.yes + self.no else 2

    def summary(self):
        """The lines of the summary."""
        others = self.count - self.yes - self.no
        counts = f"{self.yes} yes, {self.no} no" + (f", {others} not judged" if others else "")
        lines = [f"{counted(self.count, 'connection')}: {counts}. {INFERRED[0]}", INFERRED[1]]
        if self.between:
            where = ("The capture was made between the hosts:" if self.between == self.yes + self.no else
                     f"Captured between the hosts: {counted(self.between, 'connection')}. There")
            lines += [line.format(where) for line in BETWEEN]
        if self.half:
            lines.append(HALF if self.half == self.yes + self.no else SOME.format(counted(self.half, "connection")))
        return lines


def facts(result):
    """The facts of a connection, for JSON."""
    found = {"client": result.client, "server": result.server, "begun": result.begun / 10**9,
             "segments": result.segments} | members(result.figures)
    if result.is_part:
        found["part"] = True
    if not result.levels:
        return found | {"judged": False, "reason": result.reason, "status": result.status}
    answer = result.answer
    if result.since:
        found["judged_from"] = [place(each) for each in result.since]
        found["made_up"] = [result.made_up[0], result.made_up[-1]]
    found |= {"judged": True, "hosts": result.hosts, "level": answer["level"], "answer": result.verdict,
              "status": result.status}
    if result.verdict == "yes":
        found |= {"lines": answer["lines"], "steps": answer["hidden"]}
    else:
        found |= {name: answer[name] for name in ("witness_line", "trace_line", "rule")}
        found |= refused(result.refusals[-1])
    found |= ({"place": result.place} if result.place else {}) | {"size": result.sizes}
    levels = [level | refused(refusal) for level, refusal in zip(result.levels, result.refusals)]
    found |= {"ways": result.ways} if result.ways else {}
    found |= {"levels": levels, "said": result.said if result.files else result.said_in_packets}
    return found | ({"files": result.files} if result.files else {})


def refused(refusal):
    """The members that say what was refused, if something was."""
    if not refusal:
        return {}
    found = {"sentence": f"{refusal.sentence}."} | place(refusal.place)
    if owed := refusal.owed:
        times = {name: getattr(owed, name) / SECOND for name in ("since", "due", "latest", "late")}
        found["owed"] = place(owed.place) | {"began": owed.begun_there} | times
    return found


def place(packet):
    """The members that say where and when a packet was captured."""
    return {"capture": packet.capture, "packet": packet.count, "time": packet.time / SECOND}
