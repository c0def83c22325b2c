"""The command tcpwit-import."""
import argparse
import os
from itertools import chain

from ..calls.completeness import refuse_missing_ends, refuse_missing_sends
from ..calls.host_calls import HostCalls
from ..calls.strace_log import read_log
from ..capture.clocks import SAME, bounds_of, clock_of, refuse_distant, said
from ..capture.connections import connections_of, refuse_gaps
from ..capture.copies import without_copies
from ..capture.packets import read_capture, shown
from ..capture.sizes import sizes_of
from ..files import print_lines, remove, write_file
from ..problem import Notes, Parser, Problem, named_file, say, status_of
from ..progress import Part
from ..remedies import ALL_CALLS, ELSEWHERE, NOTHING_SENT
from ..trace import header as headers
from ..trace.cases import cases_by_listener
from ..trace.lines import Writer
from . import lab
from .options import add_version_and_slack, add_wire, add_words_of_judging, moment, number_within, weakest
from .selection import addresses_of, chosen_connections

DESCRIPTION = """Converts captures and system call logs of unmodified programs into traces for tcpwit.

A capture is a file that tcpdump -w or Wireshark wrote at a host's interface. A log is a file that strace wrote:
  strace -f --decode-fds=socket --absolute-timestamps=format:unix,precision:ns -xx -s 1048576 -o FILE PROGRAM ..
HOST is 0, 1 or both. Use both for a capture of the loopback interface, and for the log of a program that is both hosts.
With files of host 0 only, the trace belongs to a half case.
tcpwit-import prints the trace. With --out, it writes the trace there and judges it: it prints the lines of
tcpwit_lab judge and saves the case next to the trace. Standard error lists what was left out and which settings were
chosen.

The level full is judged in version 5 of the texts, and the others in version 6, which reads SACK blocks. The trace has
the version of the level of --congestion, and the case that of the last level tried. With --version, all have that one.

The status is 0 if the level of --congestion (default: full; with --version 6, recovery) or a stricter one has a yes, 1
if none has, 2 for an error. Without --out, or with --no-check, it is 0 once the trace is written."""


def parser():
    """The command's options."""
    words = Parser(prog="tcpwit-import", description=DESCRIPTION, formatter_class=argparse.RawDescriptionHelpFormatter)
    words.add_argument("--capture", nargs=2, action="append", metavar=("HOST", "FILE"), default=[],
                       help="a capture of a host")
    words.add_argument("--calls", nargs=2, action="append", metavar=("HOST", "FILE"), default=[],
                       help="a log of a host's calls")
    words.add_argument("--zero", action="append", metavar="ADDRESS", default=[],
                       help="use only connections with this address of host 0")
    words.add_argument("--one", action="append", metavar="ADDRESS", default=[],
                       help="use only connections with this address of host 1")
    words.add_argument("--each", choices=("pair", "connection"), default="pair",
                       help="write a trace for each pair of hosts, or for each connection (default: pair)")
    words.add_argument("--out", type=named_file, metavar="PATH",
                       help="write the trace to this file, or several traces to this folder, and judge them")
    add_words_of_judging(words)
    words.add_argument("--keep-gaps", action="store_true",
                       help="accept captures that lost packets and logs that lack sends")
    add_wire(words)
    words.add_argument("--skip-begun", action="store_true", help="leave out connections that began before the capture")
    words.add_argument("--end", type=moment, metavar="SECONDS",
                       help="when the recording ended, in seconds since 1970 by host 0's clock (default: the last "
                       "packet or call)")
    words.add_argument("--quiet", action="store_true", help="print only errors")
    group = words.add_argument_group("header values, to replace the detected ones")
    add_version_and_slack(group)
    for name in headers.LIMITS:
        group.add_argument("--" + name, type=number_within(*headers.LIMITS[name]), metavar="N", help=headers.HELP[name])
    for name, values in headers.WORDS.items():
        group.add_argument("--" + name, choices=values, help=headers.HELP.get(name))
    return words


HOSTS = {"0": 0, "1": 1, "both": None}


def files_by_host(pairs, option):
    """The files of each host."""
    found = {}
    for host, name in pairs:
        if host not in HOSTS:
            raise Problem(f"{option} {host}: no such host", "give 0, 1 or both before the file")
        found.setdefault(HOSTS[host], []).append(name)
    if None in found and len(found) > 1:
        raise Problem(f"{option} both is combined with files of one host", "give either both, or 0 and 1")
    return found


def read_captures(options, files, notes):
    """The packets of each host; several captures of a host are merged. A host with a known address may have received
    nothing."""
    found, known = {}, {}
    for host, names in files.items():
        packets = [packet for name in names
                   for packet in read_capture(name, notes, known, bool(addresses_of(options, host)))]
        if len(names) > 1:
            packets.sort(key=lambda packet: packet.moment)
        found[host] = packets
    return found


def run(options, notes):
    """Reads all files and returns the lines of each trace by its name. They are made when they are asked for; then the
    notes are complete."""
    captures, logs = files_by_host(options.capture, "--capture"), files_by_host(options.calls, "--calls")
    if not captures:
        raise Problem("no capture is given", "give --capture HOST FILE, of a capture by tcpdump -w")
    if not logs:
        raise Problem("no log of calls is given", "give --calls HOST FILE, of a log by strace")
    if 1 in logs and 0 not in logs:
        raise Problem("calls are given for host 1, but not for host 0", "call the recorded host 0")
    if 0 in logs and 1 not in logs:
        captures.pop(1, None)
    if None not in captures and set(captures) != set(logs):
        raise Problem("a host has a log but no capture",
                      "give --capture and --calls for the same hosts, or --capture both")
    packets = read_captures(options, captures, notes)
    names = {host: ", ".join(files) for host, files in captures.items()}
    with Part("finding the connections"):
        connections = connections_of({names[host]: of_host for host, of_host in packets.items()})
        for connection in connections:
            connection.seen = {name: without_copies(found, notes) for name, found in connection.seen.items()}
    if not connections:
        raise Problem(f"{', '.join(names.values())}: no TCP segment",
                      "capture at the interface that the programs use, with the filter tcp or none", NOTHING_SENT)
    endpoints = []
    last = {host: max((packet.moment for packet in of_host), default=0) for host, of_host in packets.items()}
    for host in sorted(logs, key=str):
        own = [names[None if None in names else host]] if None in names or host in names else []
        events = read_log(logs[host])
        last[host] = max(last.get(host, 0), *(event.begin if event.end is None else event.end for event in events))
        with Part(f"converting the calls of {', '.join(logs[host])}"):
            endpoints += HostCalls(host, connections, own, notes).run(released(events))
    if not endpoints:
        raise Problem(f"{', '.join(name for files in logs.values() for name in files)}: no TCP call", ALL_CALLS,
                      ELSEWHERE)
    hosts = 2 if len(logs) == 2 or None in logs else 1
    with Part("comparing the captures and the calls"):
        return make_traces(options, notes, names, connections, endpoints, hosts, last)


def released(events):
    """The events of a log, without keeping those that were handled: they have all its bytes."""
    events.reverse()
    while events:
        yield events.pop()


def make_traces(options, notes, names, connections, endpoints, hosts, last):
    """The lines of each trace by its name. `last` has the moment of each host's last packet or call, by its own
    clock."""
    connections = chosen_connections(options, notes, connections, endpoints, hosts, names)
    if hosts == 2:
        refuse_missing_ends(connections, endpoints, notes)
    if not options.keep_gaps:
        refuse_gaps(connections)
        refuse_missing_sends(connections, endpoints)
    clock = SAME
    if len(names) == 2:
        clock = clock_of(*bounds_of(connections, names))
        refuse_distant(clock)
        if clock != SAME:
            notes.say(said(clock))
    chosen = {name: getattr(options, name) for name in (*headers.LIMITS, *headers.WORDS, "slack")
              if getattr(options, name) is not None}
    lines = headers.header(hosts, (clock.skew + 999) // 1000, chosen, options.version)
    notes.say(f"header: {', '.join(lines)} ({'two hosts' if hosts == 2 else 'one host'} recorded)")
    head = [line + "\n" for line in lines]
    cases = cases_of(options, connections, endpoints, hosts)
    for case in cases:
        say_established(case, notes, f"{case.name}: " if len(cases) > 1 else "")
    captures = names if hosts == 2 or None in names else {0: names[0]}
    for connection in connections:
        connection.on_wire = sizes_of(connection, captures, options.wire)
    end = options.end or max(clock.at(moment) if host == 1 else moment for host, moment in last.items())
    return {case.name: chain(head, Writer(case, captures, clock, end, notes).lines()) for case in cases}


def say_established(case, notes, prefix):
    """Notes how many connections were established, unless all were: a verdict says little about the others."""
    others = [connection for connection in case.connections if connection.completed() is None]
    if others:
        connection = others[0]
        why = ("its SYN-ACK was never acknowledged" if connection.answered() is not None
               else "its SYN was answered by a reset" if connection.was_reset() else "its SYN was never answered")
        notes.say(f"{prefix}{len(case.connections) - len(others)} of {len(case.connections)} connections were "
                  f"established (first that wasn't: {next(connection.packets()).place}: {connection}; {why})")


def cases_of(options, connections, endpoints, hosts):
    """A case for each pair of hosts, or for each connection. Listeners that share a port have a case each."""
    groups = {}
    for number, connection in enumerate(connections, 1):
        ends = {host: end for end, host in connection.hosts.items()}
        if options.each == "connection":
            name = f"{number}-" + "-".join(shown(ends[host]) for host in (0, 1))
        elif hosts == 2:
            name = "run"
        else:
            name = shown(ends[1]).rsplit(":", 1)[0].strip("[]")
        groups.setdefault(name, []).append(connection)
    return [case for name, group in groups.items() for case in cases_by_listener(name, group, endpoints)]


def file_name(name):
    """A trace's name without characters that file systems refuse."""
    return name.replace(":", "_").replace("[", "").replace("]", "")


def refuse_others(folder, files):
    """Refuses a folder with traces or cases that this run doesn't replace."""
    own = {os.path.basename(name) for trace in files for name in (trace, lab.case_of(trace))}
    others = sorted(name for name in os.listdir(folder) if name.endswith((".trace", ".case")) and name not in own)
    if others:
        raise Problem(f"{folder} has {len(others)} traces and cases of another run, such as {others[0]}",
                      "remove them, or name another folder with --out")


def write(options, traces):
    """Prints one trace, or writes all, and returns the file of each trace that was written."""
    if options.out and (len(traces) > 1 or os.path.isdir(options.out)):
        os.makedirs(options.out, exist_ok=True)
        files = {name: os.path.join(options.out, file_name(name) + ".trace") for name in traces}
        refuse_others(options.out, files.values())
    elif len(traces) > 1:
        raise Problem(f"{len(traces)} traces: {', '.join(traces)}",
                      "write them to a folder with --out, or select one with --one ADDRESS")
    else:
        files = {name: options.out for name in traces if options.out}
    for name, lines in traces.items():
        if name in files:
            # The case of an earlier trace would look like this one's.
            remove(lab.case_of(files[name]))
            write_file(files[name], map(str.encode, lines))
        else:
            print_lines(lines)
    return files


def import_and_judge(options):
    """Builds, writes and judges the traces, and returns the exit status."""
    least = weakest(options, options.congestion, "--congestion")
    program = lab.program(options.lab) if options.out and not options.no_check else None
    notes = Notes()
    files = write(options, run(options, notes))
    if not options.quiet:
        for line in notes.lines():
            say("tcpwit-import", line)
    return lab.judge_all(program, files, least, options) if program else 0


def main(words=None):
    """Runs the command and returns its exit status."""
    options = parser().parse_args(words)
    Part.command = None if options.quiet else "tcpwit-import"
    return status_of("tcpwit-import", lambda: import_and_judge(options))
