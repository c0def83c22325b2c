"""Judges one connection: reads its packets, infers its calls, and runs `tcpwit_lab judge` on the trace."""
import json
import os
import re
import tempfile
from copy import copy
from dataclasses import dataclass, field
from itertools import filterfalse
from typing import Any

from ..capture.connections import refuse_gaps
from ..capture.packets import shown
from ..capture.sizes import UNKNOWN, Size, sizes_of
from ..figures.figures import figures_of
from ..files import remove, write_file
from ..infer.begun import beginnings
from ..infer.conversion import Trace
from ..infer.hosts import CLIENT, SERVER, Undecided
from ..infer.midpoint import split
from ..infer.opening import is_made_up
from ..infer.place import BETWEEN
from ..infer.silence import LATE
from ..infer.unjudged import extension, refuse
from ..objects import without_collection
from ..problem import Notes, Problem, counted, decoded, place_of
from ..remedies import LESS_AT_ONCE
from ..trace import header as headers
from ..trace.header import FULL, LEVELS, VALUES
from . import lab, spawned, standing
from .ladder import ladder
from .levels import joined, runs
from .refusals import refusals_of
from .retransmissions import Witness
from .wireshark import Captured, named, placed

# What the line of a verdict has after its first word.
NUMBERS = {"yes": ("lines", "hidden"), "no": ("rule",)}
# The rules by which `judge` says that no duty was late, each time with those that judge inferred calls: all but 48,
# start-late, and 57, answer-late.
RULES = {"(rules 40 to 52)": "(rules 40 to 47 and 49 to 52)",
         "(rules 40 to 50 and 52)": "(rules 40 to 47, 49, 50 and 52)",
         "(rules 40 to 49 and 52)": "(rules 40 to 47, 49 and 52)",
         "(rules 40 to 50, 52, 56 and 57)": "(rules 40 to 47, 49, 50, 52 and 56)",
         "(rules 40 to 49, 52, 56 and 57)": "(rules 40 to 47, 49, 52 and 56)"}
# What it says of a trace with a fault: the line and the kind. Only moments are numbers that may be too large.
FAULT, TOO_LONG, NUMBER = re.compile(r"bad trace (\d+) \d+ \d+ (.+)"), "too-many-lines", "number"
# The strictest level of a connection that began before the capture: its congestion window isn't known.
STRICTEST = "recovery"
# Up to so many segments, one process judges many connections.
SMALL = 200
# The rank of its best answer.
BEST = (False, LEVELS.index(STRICTEST))


@dataclass
class Result:
    """What was found out about a connection: `levels` has the members of `judge --json` for each level tried, and
    `refusals` what each refused, or None; without any, `reason` says why the connection wasn't judged. `ways` has the
    ways of hosts that `judge --json` names. `start` is the time of its first packet; with a report, `ladders` has the
    packets around each one that a level refused. With annotations, `retransmissions` has what permitted each one, by
    its capture and number. `figures` has those of the client and the server, if they are wanted."""
    client: str
    server: str
    begun: int
    segments: int
    levels: list = field(default_factory=list)
    refusals: list = field(default_factory=list)
    ladders: dict = field(default_factory=dict)
    retransmissions: dict = field(default_factory=dict)
    start: Any = None
    ways: list = field(default_factory=list)
    reason: str = ""
    hosts: int = 0
    status: int = 0
    said: list = field(default_factory=list)
    files: list = field(default_factory=list)
    notes: Any = None
    # Whether only its beginning was judged, and of how many captures.
    is_part: bool = False
    captures: int = 1
    # Where the only capture was made: client, server, both or between.
    place: str = ""
    # Whether the sizes of the client's and of the server's segments were judged, and why, in a word for each.
    sizes: dict = field(default_factory=dict)
    # If it began before the capture: the first packet judged in each capture, and which lines were made up.
    since: list = field(default_factory=list)
    made_up: range = range(0)
    figures: list = field(default_factory=list)

    @property
    def name(self):
        """The connection in the output."""
        return f"{self.client} -> {self.server}"

    @property
    def is_between(self):
        """Whether it was captured between its hosts."""
        return self.place == BETWEEN

    @property
    def answer(self):
        """The members for the last level; empty if it wasn't judged."""
        return self.levels[-1] if self.levels else {}

    @property
    def verdict(self):
        """`yes` or `no`, or None without an answer."""
        return self.answer.get("answer")

    @property
    def rule(self):
        """The rule of a no."""
        return self.answer.get("rule")

    @property
    def rank(self):
        """Compares answers: a yes is before a no, and a stricter level before a laxer one."""
        return self.verdict != "yes", LEVELS.index(self.answer["level"])

    @property
    def line(self):
        """Its verdict, and what was refused by the laxest level that refused something; or why it has no verdict."""
        if not self.levels:
            return f"not judged: {self.reason}"
        numbers = " ".join(str(self.answer[name]) for name in NUMBERS[self.verdict])
        row = f"{self.answer['level']:<10}{self.verdict} {numbers}"
        if failed := [refusal for refusal in self.refusals if refusal]:
            # A no has named its level already.
            row += f"; {failed[-1].level}: " if self.verdict == "yes" else "; "
            row += failed[-1].sentence
        if self.since:
            since = " and ".join(named(place, self.captures) for place in self.since)
            row += f"   (judged from {since} on: it began before the capture)"
        return row + (f"   (its first {counted(self.segments, 'segment')})" if self.is_part else "")

    def forget(self):
        """Removes the answer, and the files that the report has of it."""
        for name in self.files:
            remove(name)
        self.levels, self.refusals, self.ways, self.said, self.files = [], [], [], [], []
        self.ladders, self.retransmissions = {}, {}

    def put_first(self, before):
        """Adds `full`, which the run before this one tried: its first level."""
        self.levels, self.refusals = before.levels[:1] + self.levels, before.refusals[:1] + self.refusals
        self.said = joined(before.said, self.said)
        self.ladders |= {place: rungs for place, rungs in before.ladders.items()
                         if place == before.refusals[0].place}

    @property
    def said_in_packets(self):
        """What `judge` said, with packets instead of lines of the trace."""
        said = self.said
        for level, refusal in zip(self.levels, self.refusals):
            if refusal:
                said = [line.replace(level["sentence"], f"{refusal.sentence}.") for line in said]
        return said

    @property
    def lines_made_up(self):
        """A line for those of the trace that no packet is behind."""
        if not self.made_up:
            return []
        return [f"Lines {self.made_up[0]} to {self.made_up[-1]} were made up: the connection began before the capture."]


class Judge:
    """Judges connections with the same options. `captures` has the captures by their names, `roles` finds their
    hosts."""

    def __init__(self, program, captures, roles, options, chosen):
        self.program, self.captures, self.roles, self.options, self.chosen = program, captures, roles, options, chosen
        self.files = {name: capture.file for name, capture in captures.items()}
        self.layouts = {name: capture.layout for name, capture in captures.items()}
        self.last = {name: capture.last for name, capture in captures.items()}
        self.clock = roles.clock()
        # For each program, the variables would be encoded again.
        self.environment = dict(os.environb)

    @without_collection
    def result(self, number, indexed, moment=None):
        """The result of a connection, which is the one with this number. `moment` is when its recording ended, if its
        capture goes on."""
        found = Result(shown(indexed.client), shown(indexed.server), indexed.begun, indexed.count, notes=Notes())
        found.is_part, found.captures = getattr(indexed, "is_part", False), len(self.files)
        found.start = next((indexed.begun - self.captures[name].layout.first for name in indexed.places), None)
        try:
            if indexed.client == indexed.server:
                raise Undecided("it connects a port with itself")
            connection = indexed.read(self.files, self.layouts)
            if self.options.stats or self.options.json or self.options.report:
                found.figures = self.figures(indexed, connection)
            if indexed.fragmented or self.is_fragmented(indexed):
                raise Problem("the capture has fragments of IP packets with segments between its hosts",
                              "record with a smaller MTU")
            self.judge(number, indexed, connection, found, moment)
        except Undecided as reason:
            found.reason, found.status = str(reason), 0
        except Problem as problem:
            found.reason, found.status = problem.cause, 2
        except MemoryError:
            found.reason, found.status = f"memory ran out: {LESS_AT_ONCE}", 2
        except OSError as error:
            found.reason, found.status = ": ".join(filter(None, (error.filename, error.strerror or str(error)))), 2
        except Exception as error:
            # The other connections are judged all the same.
            cause = f"{type(error).__name__}: {error} ({place_of(error)})"
            found.reason, found.status = f"{cause}; this is a bug: report it with the capture", 2
        return found

    def figures(self, indexed, connection):
        """The figures of a connection's ends, each as the capture of its host has them."""
        try:
            names = self.roles.assign(indexed)
        except Undecided:
            names = {}
        captures = {end: names.get(host) for end, host in indexed.hosts.items()}
        begin = {name: layout.first for name, layout in self.layouts.items()}
        return list(figures_of(connection, captures, indexed.own, begin))

    def is_fragmented(self, indexed):
        """Whether segments between a connection's addresses came in fragments, which can't be judged."""
        return any(frozenset((indexed.client[0], indexed.server[0])) in self.layouts[name].fragmented
                   for name in indexed.places)

    def judge(self, number, indexed, connection, found, moment):
        """Judges a connection, which has its packets; `indexed` is the same without them."""
        captures = self.roles.assign(indexed)
        last = {host: moment or self.last[name] for host, name in captures.items()}
        connection.hosts = indexed.hosts
        refuse(connection)
        self.roles.refuse_unknown(indexed)
        unknown, found.place = extension(connection), self.roles.place(indexed)
        found.hosts = 1 if list(captures) == [0] else 2
        connection.on_wire = sizes_of(connection, captures, self.options.wire)
        if not indexed.whole:
            connection.on_wire = dict.fromkeys(connection.on_wire, Size(UNKNOWN))
        found.sizes = {CLIENT if end == connection.client else SERVER: size.why
                       for end, size in connection.on_wire.items()}
        if not indexed.whole:
            if found.is_between:
                raise Undecided(f"it began before the capture ({counted(indexed.count, 'segment')})")
            self.judge_begun(number, connection, captures, last, found)
            if found.verdict == "no" and not indexed.is_certain:
                found.forget()
                raise Undecided("it began before the capture, and only TTLs show that this was made at a host, not "
                                "near it (--host says it)")
        else:
            self.refuse_lost(connection)
            self.judge_silent(number, self.between(connection, captures, last, found), found)
        if found.verdict == "no" and unknown:
            found.forget()
            raise Problem(unknown, "")

    def between(self, connection, captures, last, found):
        """What a trace is made of: if a connection was captured between its hosts, of one capture for each."""
        if not found.is_between:
            return connection, captures, last, self.chosen
        captures, spread = split(connection, captures[None], self.options.skew * 1000, found.notes)
        # A timer may seem to expire so much too early.
        grain = min(headers.LIMITS["grain"][1], headers.VALUES["grain"] + spread // 1000)
        return (connection, captures, {0: last[None], 1: last[None]},
                {"grain": grain} | self.chosen | {"slack": headers.ANY})

    def judge_begun(self, number, connection, captures, last, found):
        """Judges a connection that began before the capture. Of its possible beginnings, the one with the best answer
        counts."""
        least = 1000 * self.chosen.get("minrto", VALUES["minrto"])
        best = latest = None
        for begun in beginnings(connection, captures, self.clock, least):
            self.refuse_lost(begun)
            latest = begun, captures, last, self.chosen
            found.since = [self.first_judged(begun.seen[name]) for name in captures.values()]
            self.judge_silent(number, latest, found)
            best = min(best or (found.rank, latest), (found.rank, latest), key=lambda pair: pair[0])
            if found.rank == BEST:
                return
        if best[1] is not latest:
            self.judge_silent(number, best[1], found)

    def first_judged(self, packets):
        """The place of the first of a capture's packets that wasn't made up."""
        packet = next(filterfalse(is_made_up, packets))
        return placed(packet, self.layouts[packet.capture].first)

    def judge_silent(self, number, given, found):
        """Judges a connection whose host may have given up."""
        self.judge_levels(number, given, found, found.notes)
        if found.rule in LATE and self.judge_levels(number, given, found, Notes(), True) and found.rule:
            # Giving up doesn't help either: the first answer again.
            self.judge_levels(number, given, found, Notes())

    def judge_levels(self, number, given, found, notes, gives_up=False):
        """Judges a connection in the runs that its levels need, the later ones without notes. With `gives_up`, a host
        gave up; nothing is judged if none may have. Returns whether something was."""
        before = None
        for run in self.runs(found):
            if not self.judge_run(number, given, found, run, Notes() if before else notes, gives_up):
                return False
            if before:
                found.put_first(before)
            if found.status == lab.YES:
                found.status = lab.YES if run.counts else lab.NO
                break
            before = copy(found)
        if self.options.report:
            self.describe(found)
        return True

    def judge_run(self, number, given, found, run, notes, gives_up):
        """Judges a connection in a run, with a trace in its version. Returns whether a trace was judged."""
        *parts, chosen = given
        trace = Trace(*parts, chosen | {"version": run.version}, notes, self.clock, gives_up)
        if gives_up and not trace.may_differ:
            return False
        words = self.words(found, run.words)
        if self.options.report:
            self.report(os.path.join(self.options.report, file_name(number, found)), trace, found, words)
        else:
            self.run(trace, found, words)
        return True

    def runs(self, found):
        """The runs of `judge` for a connection."""
        levels = [self.options.level, self.options.start]
        if found.since:
            levels = [STRICTEST if level == FULL else level for level in levels]
        return runs(self.options.version, *levels)

    def refuse_lost(self, connection):
        """Refuses a connection of which a capture lost packets, unless the user accepts that."""
        try:
            if not self.options.keep_gaps:
                refuse_gaps([connection])
        except Problem as problem:
            raise Problem(f"{problem.cause} (--keep-gaps judges it as it is)", problem.remedy) from problem

    def words(self, found, levels):
        """The words of `judge` for a connection, with these options for the levels."""
        slack = headers.ANY if found.is_between else self.options.slack
        words = ["judge", "--json", *levels, *(["--slack", str(slack)] if slack is not None else [])]
        return words + (["--budget", str(self.options.budget)] if self.options.budget is not None else [])

    def run(self, trace, found, words):
        """Judges a trace that isn't kept."""
        if self.options.annotate:
            with tempfile.TemporaryDirectory(prefix="tcpwit-judge-") as folder:
                case = os.path.join(folder, "case")
                self.read(found, trace, case, *self.answer(trace.lines(), [*words, "--case", case]))
        elif found.segments > SMALL:
            self.read(found, trace, None, *self.answer(trace.lines(), words))
        else:
            lines = list(trace.lines())
            self.read(found, trace, None, *(self.answer_of_many(lines, words) or self.answer(lines, words)))

    def answer_of_many(self, lines, words):
        """The answer to a trace of a process that judges many. None: it gives none, or says what is wrong, so that a
        process has to judge the trace alone."""
        line = standing.answer_of([self.program, *words, "--many"], self.environment, lines)
        try:
            status = json.loads(line or "")["status"]
        except ValueError:
            return None
        return spawned.Done(line, b"", status) if status in (lab.YES, lab.NO) else None

    def answer(self, lines, words):
        """What a process that judges a trace with these lines prints, on both outputs, and its status."""
        try:
            return spawned.run([self.program, *words], lines, self.environment)
        except OSError as error:
            raise Problem(f"{self.program}: {error.strerror}", lab.NAME_IT) from error

    def report(self, name, trace, found, words):
        """Judges a trace that is kept in the file with this name, with its case."""
        write_file(name, map(str.encode, trace.lines()))
        case = lab.case_of(name)
        words = [self.program, *words, "--case", "./" + os.path.basename(case)]
        done = lab.on_file(words, name, os.path.dirname(name) or ".")
        found.files = [name]
        self.read(found, trace, case, done.stdout, done.stderr, done.returncode)

    def describe(self, found):
        """Adds the picture and the explanation of the case that is kept with a trace."""
        name, = found.files
        case = lab.case_of(name)
        lab.draw(self.program, name)
        explained = lab.on_file([self.program, "explain"], case)
        refused = [line for line in found.said_in_packets if line not in found.said]
        said = [f"{line}\n".encode() for line in (*found.said, *refused, *found.lines_made_up, "")]
        write_file(text_of(name), [*said, explained.stdout])
        kept = case, name.removesuffix(".trace") + ".svg", text_of(name)
        found.files += [name for name in kept if os.path.exists(name)]

    def read(self, found, trace, case, out, error, status):
        """Reads the object that `judge` printed for a trace, whose lines were made, into a result. The case is the one
        that it wrote."""
        if status not in (lab.YES, lab.NO):
            said = "; ".join(said_in(out)[:1] + decoded(error).splitlines()[-1:])
            raise Problem(fault_in(found, trace, said) or said or lab.ended(status), "")
        judged = json.loads(out)
        found.levels, found.ways, found.status = judged["levels"], judged.get("ways", []), status
        captured = Captured(trace, {name: capture.layout.first for name, capture in self.captures.items()})
        found.refusals = refusals_of(found.levels, captured, found.captures)
        if self.options.report:
            found.ladders = {refusal.place: ladder(trace.connection, captured, refusal)
                             for refusal in found.refusals if refusal}
        if self.options.annotate:
            with open(case, encoding="ascii") as file:
                refused = found.answer.get("witness_line", 0)
                found.retransmissions = Witness(file, trace, captured, found.captures, refused).reasons
        found.said = [inferred(line) for line in judged["said"]]
        found.made_up = trace.made_up()


def fault_in(found, trace, said):
    """Why `judge` refused a trace: not a place in it, which nobody has, but the packet there. None if it's no fault of
    the trace."""
    fault = FAULT.match(said)
    if not fault:
        return None
    packet, kind = trace.packet(int(fault[1])), fault[2]
    if kind == TOO_LONG:
        return "its trace would have more than 10,000,000 lines"
    if kind == NUMBER and packet:
        return f"{named(packet, found.captures)} was captured at a moment too far from that of the first packet"
    where = f" ({named(packet, found.captures)})" if packet else ""
    return f"no trace can have this connection{where}: {kind}; this is a bug: report it with the capture"


def said_in(out):
    """The lines in an object that `judge` printed, or those that it printed instead, such as `bad usage`."""
    try:
        return json.loads(out)["said"]
    except ValueError:
        return decoded(out).splitlines()


def inferred(line):
    """What `judge` printed, with the rules that judge inferred calls."""
    for rules, judged in RULES.items():
        line = line.replace(rules, judged)
    return line


def text_of(trace):
    """The file of a trace's explanation."""
    return trace.removesuffix(".trace") + ".txt"


def file_name(number, found):
    """The file of a connection's trace."""
    return f"{number}-{found.client}-{found.server}.trace".replace(":", "_").replace("[", "").replace("]", "")
