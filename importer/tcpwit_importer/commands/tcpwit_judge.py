"""The command tcpwit-judge."""
import argparse
import contextlib
import os
import signal
import sys
from ipaddress import ip_address

from ..capture.clocks import SAME, said
from ..capture.index import Capture, indexed, plain
from ..capture.layers import CUT
from ..infer.hosts import BOTH, CLIENT, SERVER, OneCapture, TwoCaptures
from ..infer.place import BETWEEN, Places
from ..problem import Notes, Parser, Problem, counted, named_file, say, status_of
from ..progress import Part
from ..remedies import NOTHING_SENT, WIDER
from ..trace import header as headers
from . import lab, standing
from .annotated import annotate
from .live import Pool, Reader, Stream, standard_input, watch
from .options import add_first_level, add_version_and_slack, add_wire, number_within, weakest
from .output import Output
from .verdicts import Judge
from .workers import Results, terminating

COMMAND, STANDARD_INPUT = "tcpwit-judge", "-"
DESCRIPTION = """Judges the TCP connections of captures, without a log of the programs' calls.

FILE is what tcpdump -w or Wireshark wrote: pcap or pcapng, also compressed with gzip. Give one capture, or two that
were made at the same time, one at each host. With - as the only FILE, standard input is a capture that goes on, such
as that of tcpdump -U -w -; each connection is judged once it has ended and was silent for --idle seconds, or at the
end.

Where a single capture was made is taken from what it shows, and said on standard error; --host and --between overrule
it.

The calls of the programs are inferred from the segments. So neither their answers are judged, nor how soon a host
sends what its program gave it (rule start-late).

Each connection has a line: its level and the answer of tcpwit_lab judge, or why it isn't judged. If a level was
refused, the line ends with what it refused, and in which packet; of several levels, it's the laxest. A connection that
began before the capture is judged from its first captured packet on, at recovery at most.

The level full is judged in version 5 of the texts, and the others in version 6, which reads SACK blocks; with
--version, all are judged in that version.

The status is the highest of all connections: 0 if a level of at least --level has a yes, 1 if not, 2 for an error.
It's also 2 if nothing could be judged."""
HELP = {"msl": headers.HELP["msl"], "grain": headers.HELP["grain"], "minrto": headers.HELP["minrto"]}


def parser():
    """The command's options."""
    words = Parser(prog=COMMAND, description=DESCRIPTION, formatter_class=argparse.RawDescriptionHelpFormatter)
    words.add_argument("files", nargs="+", type=named_file, metavar="FILE", help="a capture")
    words.add_argument("--host", type=which, metavar="HOST",
                       help=f"whose capture it is, if you give only one: {CLIENT}, {SERVER}, an address, or {BOTH} for "
                       "a capture that has each segment once for both hosts, such as one of lo (default: what marks, "
                       "checksums, TTLs and times show)")
    words.add_argument("--between", action="store_true",
                       help="the capture was made between the hosts, such as at a switch: it shows both, but not when "
                       "segments were received, so no duty is judged")
    words.add_argument("--skew", type=number_within(*headers.LIMITS["skew"]), default=headers.VALUES["slack"],
                       metavar="N",
                       help="for a capture between the hosts: how many microseconds a segment needs at most from its "
                       "host to the capture; one that passes later isn't taken for reordered (default: 1000000)")
    add_wire(words)
    words.add_argument("--level", choices=headers.LEVELS,
                       help=f"the weakest level whose yes gives status 0 {headers.STRICTEST}")
    add_first_level(words, "--level")
    # `judge` would rewrite an older trace in this version.
    add_version_and_slack(words, headers.VERSION)
    words.add_argument("--budget", type=number_within(0, 2**64 - 1), metavar="N",
                       help="how many steps the search spends on going back for one line (default: its own)")
    words.add_argument("--report", type=named_file, metavar="DIR",
                       help="make a folder with a page, index.html, and the trace, the case, the picture and the "
                       "explanation of each connection")
    words.add_argument("--annotate", action="append", type=named_file, metavar="OUT.pcapng",
                       help="write the capture again, with comments on packets: what was refused, and why "
                       "retransmissions are permitted; for two captures, give it twice, in their order")
    words.add_argument("--stats", action="store_true",
                       help="print figures below each connection: packets, bytes, round trips, retransmissions by "
                       "cause, duplicate acknowledgments, closed windows; --json and --report always have them")
    words.add_argument("--json", action="store_true", help="print a JSON object for each connection")
    words.add_argument("--jobs", type=number_within(1, 1024), default=os.cpu_count() or 1, metavar="N",
                       help="how many connections are judged at once (default: one for each processor)")
    words.add_argument("--idle", type=number_within(1, 86_400), metavar="SECONDS",
                       help="with -: after how many seconds of silence a connection that has ended is judged (default: "
                       "twice the msl)")
    words.add_argument("--memory", type=number_within(1, 10**6), default=256, metavar="MB",
                       help="with -: how much memory the packets may need; if it's too little, the largest connection "
                       "is judged as far as it was captured (default: 256)")
    words.add_argument("--keep-gaps", action="store_true",
                       help="judge connections of which a capture lost packets, or of which a host acknowledged a byte "
                       "that no capture has")
    words.add_argument("--lab", type=named_file, metavar="PATH", help="the program tcpwit_lab, which judges traces")
    words.add_argument("--quiet", action="store_true", help="print only verdicts and errors")
    group = words.add_argument_group("header values, to replace the default ones")
    for name, text in HELP.items():
        group.add_argument("--" + name, type=number_within(*headers.LIMITS[name]), metavar="N",
                           help=f"{text} (default: {headers.VALUES[name]})")
    group.add_argument("--initial", choices=headers.WORDS["initial"],
                       help=f"{headers.HELP['initial']} (default: {headers.VALUES['initial']})")
    return words


def which(text):
    """An argparse type: client, server, both or an address."""
    if text not in (CLIENT, SERVER, BOTH):
        try:
            ip_address(text)
        except ValueError:
            raise argparse.ArgumentTypeError(f"{text!r} isn't {CLIENT}, {SERVER}, {BOTH} or an address") from None
    return text


def header_values(options):
    """The header values that the user chose, and the version."""
    chosen = {name: getattr(options, name) for name in (*HELP, "initial", "slack", "version")}
    return {name: value for name, value in chosen.items() if value is not None}


def refuse_words(options):
    """Refuses options that don't fit each other, and sets the weakest level whose yes counts."""
    if len(options.files) > 2:
        raise Problem(f"{len(options.files)} captures are given", "give the capture of one host, or one of each host")
    if len(set(options.files)) < len(options.files):
        raise Problem(f"{options.files[0]} is given twice", "give the capture of each host")
    if STANDARD_INPUT in options.files and len(options.files) == 2:
        raise Problem("standard input is given with a file", "give only -, or two files")
    if (options.host or options.between) and len(options.files) == 2:
        raise Problem("--host or --between is given with two captures",
                      "leave it out: the captures show whose they are")
    if options.between and (options.host or options.slack is not None):
        raise Problem("--between is given with --host or --slack",
                      "leave these out: such a capture shows both hosts, and none of their duties")
    options.level = weakest(options, options.level, "--level")
    if options.annotate:
        refuse_outputs(options)


def refuse_outputs(options):
    """Refuses names of annotated captures that don't fit the captures."""
    if STANDARD_INPUT in options.files:
        raise Problem("--annotate is given with standard input", "write the capture to a file first")
    if len(options.annotate) != len(options.files):
        raise Problem(f"--annotate names {counted(len(options.annotate), 'file')} for "
                      f"{counted(len(options.files), 'capture')}",
                      "give --annotate once for each capture, in their order: a packet keeps its number")
    names = [os.path.realpath(name) for name in (*options.files, *options.annotate)]
    for place, name in enumerate(names):
        if name in names[:place] and place >= len(options.files):
            raise Problem(f"--annotate {options.annotate[place - len(options.files)]} would replace another file",
                          "give a new name")


def judge(options):
    """Judges all connections of the captures, and returns the exit status."""
    refuse_words(options)
    if options.between:
        options.host = BETWEEN
    program = lab.program(options.lab)
    if options.report:
        prepare(options.report)
    return (judge_live if options.files == [STANDARD_INPUT] else judge_files)(options, program, Notes())


def judge_live(options, program, notes):
    """Judges the connections of a capture that goes on. Ctrl-C ends the capture; what was captured is still judged."""
    signal.signal(signal.SIGINT, lambda *_: signal.signal(signal.SIGINT, signal.default_int_handler))
    capture, output = Capture("standard input", None), Output(options)
    judges = Judge(program, {capture.name: capture}, OneCapture(capture, options.host), options, header_values(options))
    idle = options.idle or 2 * (options.msl or headers.VALUES["msl"]) // 10**6
    reader = Reader(capture, standard_input(), notes)
    places = places_of(options, [capture])
    with contextlib.closing(Pool(judges, options.jobs, output, notes, places)) as pool:
        watch(reader, Stream(capture, pool.judge, idle * 10**9, options.memory * 10**6), pool)
    if not output.count:
        raise reader.error or nothing_in([capture], notes)
    notes.said += places.lines() if places else ()
    say_notes(options, notes)
    status = output.finish()
    if reader.error:
        raise reader.error
    return status


def places_of(options, captures):
    """What decides where the only capture was made; None if there are two, or if the user says it."""
    return Places(captures[0].name) if len(captures) == 1 and not options.host else None


def judge_files(options, program, notes):
    """Judges the connections of captures in files."""
    with contextlib.ExitStack() as stack:
        captures = [Capture(name, stack.enter_context(plain(name))) for name in options.files]
        connections = indexed(captures, notes)
        if not connections:
            raise nothing_in(captures, notes)
        roles = TwoCaptures(captures, connections) if len(captures) == 2 else OneCapture(captures[0], options.host)
        if places := places_of(options, captures):
            places.decide(connections)
            notes.said += places.lines()
        judges = Judge(program, {capture.name: capture for capture in captures}, roles, options, header_values(options))
        stack.callback(standing.end_all)
        if judges.clock != SAME:
            notes.say(f"{said(judges.clock)} (host 0 is that of {captures[0].name})")
        output = Output(options, [str(connection) for connection in connections])
        # On a terminal, a line that is updated would disturb the verdicts.
        results = Results(judges, connections, options.jobs)
        with contextlib.closing(results.in_order()) as found, \
                Part("judging", len(connections), lambda: results.done, sys.stdout.isatty(), "connection"):
            for result in found:
                output.add(result)
                notes.add(result.notes)
        for capture, name in zip(captures, options.annotate or ()):
            annotate(capture, output.comments.of.get(capture.name, {}), name)
    say_notes(options, notes)
    return output.finish()


def say_notes(options, notes):
    """Prints what was left out or changed."""
    if not options.quiet:
        for line in notes.lines():
            say(COMMAND, line)


def prepare(folder):
    """Makes the folder of the report. It must be empty: files of an earlier report would look like this one's."""
    os.makedirs(folder, exist_ok=True)
    if os.listdir(folder):
        raise Problem(f"{folder} isn't empty", "name a new folder with --report")


def nothing_in(captures, notes):
    """Why there's nothing to judge in captures."""
    names = ", ".join(capture.name for capture in captures)
    if not any(capture.layout.frames for capture in captures):
        return Problem(f"{names}: the capture is empty",
                       "start the capture before the programs, at the interface that they use")
    if cut := next((place for kind, (_, place) in notes.left_out.items() if kind in CUT), None):
        return Problem(f"{names}: the capture cut all TCP headers (first: {cut})", WIDER)
    return Problem(f"{names}: no TCP segment",
                   "capture at the interface that the programs use, with the filter tcp or none", NOTHING_SENT)


def main(words=None):
    """Runs the command and returns its exit status."""
    options = parser().parse_args(words)
    Part.command = None if options.quiet else COMMAND
    with terminating():
        return status_of(COMMAND, lambda: judge(options))
