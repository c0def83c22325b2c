"""The command tcpwit-record."""
import argparse
import os
import pwd
import shlex
import shutil
import signal
import sys

from ..files import write_file
from ..problem import Notes, Parser, Problem, named_file, not_run, say, status_of
from ..progress import Part
from ..recording import NAME
from ..recording.namespaces import ADDRESSES
from ..recording.recorder import Recording, pair_words
from ..trace import header as headers
from . import tcpwit_import
from . import lab
from .options import add_version_and_slack, add_words_of_judging, number_within, weakest

DESCRIPTION = f"""Records a program's TCP, converts it into a trace, and judges it.

  tcpwit-record -- curl -o page http://example.org/     only this host: a half case
  tcpwit-record --serve -- nginx -g 'daemon off;'       the same for a server, until you interrupt it
  tcpwit-record --namespace -- ./run-my-tests           a network of its own, with a loopback: a whole case of a
                                                        program that is both hosts
  tcpwit-record --pair 'python3 -m http.server 80' -- curl -o page http://{ADDRESSES[1]}/
                                                        two hosts of its own: a whole case. The server has
                                                        {ADDRESSES[1]}, the client {ADDRESSES[0]}
  tcpwit-record --transfer 20000 --lose 3               a pair with a built-in client and server

Capturing and network namespaces need root; the programs run as the user who called sudo. Nothing outside the
namespaces is changed. tcpwit-record prints the lines of tcpwit_lab judge: how strictly congestion control can be
judged with a yes. The programs' own output goes to standard error, unchanged. Captures, logs, trace, case and picture
are saved in the folder --out, instead of those of an earlier recording; files of more than 50 MB are compressed.
Ctrl-C ends the programs, and what was recorded is judged.

The level full is judged in version 5 of the texts, and the others in version 6, which reads SACK blocks; with
--version, all are judged in that version.

The status is 0 if the level of --congestion (default: full; with --version 6, recovery) or a stricter one has a yes, 1
if none has, 2 for an error."""


# Programs that the recorder runs, with their packages.
PACKAGES = {"strace": "strace", "tcpdump": "tcpdump", "ip": "iproute2", "gzip": "gzip"}
# Options with defaults, only for a pair, only for --transfer, and only for a program whose peer is elsewhere.
OF_A_PAIR = {"kernel": headers.KERNEL, "wait": 10, "linger": 1, "delay": 2, "loss": 0, "lose": frozenset(), "double": 0,
             "reorder": 0, "seed": 1}
OF_A_TRANSFER = {"chunk": 60000, "echo": False}
OF_ONE_HOST = {"interface": "any"}


def within(least, greatest):
    """An argparse type: a number within limits."""
    def number(text):
        try:
            value = float(text)
        except ValueError:
            value = None
        if value is None or not least <= value <= greatest:
            raise argparse.ArgumentTypeError(f"{text!r} isn't a number from {least} to {greatest}")
        return value
    return number


def numbers(text):
    """An argparse type: numbers of at least 1, separated by commas."""
    parts = text.split(",")
    if not all(part.isascii() and part.isdigit() and int(part) > 0 for part in parts):
        raise argparse.ArgumentTypeError(f"{text!r} isn't a list such as 3,7")
    return frozenset(map(int, parts))


def parser():
    """The command's options."""
    words = Parser(prog=NAME, description=DESCRIPTION, formatter_class=argparse.RawDescriptionHelpFormatter,
                                    usage="tcpwit-record [options] -- PROGRAM WORDS ..")
    form = words.add_mutually_exclusive_group()
    form.add_argument("--pair", metavar="SERVER",
                      help="a server and its arguments, as one argument; PROGRAM is the client")
    form.add_argument("--transfer", type=number_within(1, 10**8), metavar="BYTES",
                      help="a built-in client that sends this many bytes, and a built-in server")
    form.add_argument("--namespace", action="store_true", help="PROGRAM is both hosts, on a loopback of its own")
    words.add_argument("--serve", action="store_true",
                       help="PROGRAM is a server: it runs until it is interrupted, or for --seconds")
    words.add_argument("--seconds", type=within(0.1, 86400), metavar="N", help="end the program after this time")
    words.add_argument("--interface", metavar="IF", help="the interface for capturing a half case (default: any)")
    words.add_argument("--buffer", type=number_within(1, 1024), default=64, metavar="MB",
                       help="memory for the packets that each capture hasn't written yet (default: 64)")
    words.add_argument("--out", type=named_file, metavar="DIR",
                       help="the folder for all files (default: a new one, tcpwit-TIME)")
    add_words_of_judging(words)
    words.add_argument("--kernel", choices=("plain", "shipped"),
                       help="a pair's kernel settings: without the additions of other RFCs (plain), or unchanged "
                       f"(shipped); default: {headers.KERNEL}")
    words.add_argument("--congestion", choices=headers.WORDS["congestion"], help=headers.HELP["congestion"])
    add_version_and_slack(words)
    words.add_argument("--as", dest="user", metavar="USER",
                       help="run the programs as this user (default: the user who called sudo)")
    words.add_argument("--wait", type=within(0.1, 600), metavar="N",
                       help="seconds within which a pair's server must listen (default: 10)")
    words.add_argument("--linger", type=within(0, 600), metavar="N",
                       help="seconds that a pair's server keeps running after the client (default: 1)")
    way = words.add_argument_group("the wire between a pair")
    way.add_argument("--delay", type=within(0, 10000), metavar="MS",
                     help="delay of each frame, in milliseconds (default: 2)")
    way.add_argument("--loss", type=within(0, 1), metavar="SHARE", help="share of segments to lose at random, 0 to 1")
    way.add_argument("--lose", type=numbers, metavar="LIST",
                     help="the client's data segments to lose, counted from 1, such as 3,7")
    way.add_argument("--double", type=within(0, 1), metavar="SHARE", help="share of segments to deliver twice, 0 to 1")
    way.add_argument("--reorder", type=within(0, 1), metavar="SHARE",
                     help="share of segments to delay twice as long, 0 to 1")
    way.add_argument("--seed", type=number_within(0, 2**63), metavar="N", help="seed of the random choices")
    own = words.add_argument_group("--transfer")
    own.add_argument("--chunk", type=number_within(1, 10**8), metavar="N",
                     help="bytes to send at once (default: 60000)")
    own.add_argument("--echo", action="store_true", default=None, help="the server sends the bytes back")
    words.add_argument("program", nargs="*", help=argparse.SUPPRESS)
    return words


def check_words(words, options):
    """Checks the options that argparse can't check, then sets the defaults of those that only some forms have."""
    if bool(options.program) == bool(options.transfer):
        words.error("give --transfer, or a program after --")
    if options.serve and (options.pair or options.transfer or options.namespace):
        words.error("--serve is for a program whose peer is elsewhere")
    try:
        if options.pair is not None and not shlex.split(options.pair):
            words.error("--pair names no server")
    except ValueError:
        words.error(f"--pair {options.pair!r} has a quotation mark without its second")
    is_pair = options.pair is not None or options.transfer
    complete(words, options, OF_A_PAIR, is_pair, "for two hosts: give --pair or --transfer too")
    complete(words, options, OF_A_TRANSFER, options.transfer, "for --transfer")
    complete(words, options, OF_ONE_HOST, not is_pair and not options.namespace,
             "for a program whose peer is elsewhere")


def complete(words, options, defaults, are_used, cause):
    """Sets the defaults of options; refuses options that this form doesn't use."""
    for name, default in defaults.items():
        if getattr(options, name) is None:
            setattr(options, name, default)
        elif not are_used:
            words.error(f"--{name} is {cause}")


def header_words(options):
    """The importer's arguments for the header. Refuses ones that don't fit the recorded hosts, before anything is
    recorded."""
    hosts = 2 if options.pair or options.transfer or options.namespace else 1
    chosen = {name: value for name in ("congestion", "slack") if (value := getattr(options, name)) is not None}
    headers.header(hosts, 0, chosen, options.version)
    if options.version:
        chosen["version"] = options.version
    return [word for name, value in chosen.items() for word in ("--" + name, str(value))]


def refuse_missing(options):
    """Names all packages and programs at once that the recording needs and that aren't installed."""
    has_namespaces = options.pair or options.transfer or options.namespace
    missing = {name: package for name, package in PACKAGES.items()
               if shutil.which(name) is None and (has_namespaces or name != "ip")}
    commands = pair_words(options) if options.pair or options.transfer else [options.program]
    unknown = [name for name in dict.fromkeys(words[0] for words in commands) if shutil.which(name) is None]
    named = [f"{name}: {not_run(name)}" for name in unknown if "/" in name]
    unknown = [name for name in unknown if "/" not in name]
    causes = [f"not installed: {', '.join([*missing, *unknown])}"] if missing or unknown else []
    remedies = [f"install them: apt-get install {' '.join(missing.values())}"] if missing else []
    remedies += [f"install {', '.join(unknown)}, or name the program as you would in a shell"] if unknown else []
    remedies += ["name a program that can be run"] if named else []
    if remedies:
        raise Problem("; ".join(causes + named), "; ".join(remedies))


def refuse_unknown_user(options):
    """Refuses a user that the system doesn't know."""
    try:
        pwd.getpwnam(options.user or "root")
    except KeyError as error:
        raise Problem(f"--as {options.user}: no such user", "name a user of this system") from error


def program_that_judges(options):
    """The program tcpwit_lab, or None if nothing is judged. Other missing programs are named with it, separately."""
    problems, program = [], None
    for check in (lambda: refuse_missing(options), lambda: None if options.no_check else lab.program(options.lab)):
        try:
            program = check()
        except Problem as problem:
            problems.append(problem)
    if problems:
        raise Problem("; ".join(problem.cause for problem in problems),
                      "; ".join(problem.remedy for problem in problems))
    return program


def recorded(options, recording):
    """Records, and returns the importer's arguments for the files."""
    try:
        return recording.pair() if options.pair or options.transfer else recording.alone()
    except BaseException:
        recording.abandon()
        raise


def imported(folder, words):
    """Imports the recording, and returns the files of its traces. The importer's data is dropped before they are
    judged."""
    notes = Notes()
    try:
        files = written(folder, tcpwit_import.run(tcpwit_import.parser().parse_args(words), notes))
    except Problem as problem:
        raise problem.of_recorder() from problem
    for line in notes.lines():
        say(NAME, line)
    return files


def written(folder, traces):
    """Writes the traces, each to a folder of its own if there are several, and returns their files."""
    files = {}
    for name, lines in traces.items():
        place = folder.name if len(traces) == 1 else folder.file(tcpwit_import.file_name(name))
        os.makedirs(place, exist_ok=True)
        files[name] = os.path.join(place, "run.trace")
        write_file(files[name], map(str.encode, lines))
    return files


def judged(options, program, folder, words, least):
    """Imports, judges and draws what was recorded, and returns the exit status. Says where the files are, also after an
    error."""
    try:
        files = imported(folder, words)
        folder.compress(".pcap", ".log")
        status = lab.judge_all(program, files, least, options) if program else 0
        for trace in files.values() if program else ():
            lab.draw(program, trace)
        folder.compress(".trace", ".case", ".svg")
        return status
    except KeyboardInterrupt:
        say(NAME, "interrupted before everything was judged")
        raise
    finally:
        compressed = "; the large ones are compressed: zcat FILE" if folder.compressions else ""
        say(NAME, f"all files are in {folder.name}{compressed}")
        folder.finish()


def record(options):
    """Records, imports and judges, and returns the exit status."""
    if os.geteuid() != 0:
        raise Problem("captures and network namespaces need root",
                      "sudo tcpwit-record ..: the program itself runs as you")
    least = weakest(options, options.congestion, "--congestion")
    words = header_words(options)
    refuse_unknown_user(options)
    program = program_that_judges(options)
    recording = Recording(options)
    try:
        files = recorded(options, recording)
    except (KeyboardInterrupt, SystemExit):
        say(NAME, f"ended before the recording was complete; its files so far are in {recording.folder.name}")
        raise
    # The import may have failed because a program failed.
    for remark in recording.remarks:
        say(NAME, remark)
    return judged(options, program, recording.folder, files + words, least)


def main(given=None):
    """Runs the command and returns its exit status."""
    words = parser()
    options = words.parse_args(given)
    check_words(words, options)
    Part.command = NAME
    # When this program is ended, it ends what it started.
    signal.signal(signal.SIGTERM, lambda *_: sys.exit(143))
    return status_of(NAME, lambda: record(options))
