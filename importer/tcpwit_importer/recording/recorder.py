"""Records programs: starts captures and programs in their hosts, and ends them in the right order."""
import contextlib
import os
import shlex
import sys
import time
from typing import NamedTuple

from ..problem import Problem, say
from ..progress import Part
from . import NAME
from .carrier import Carrier
from .folder import Folder
from .namespaces import ADDRESSES, ADDRESSES_6, Namespace, congestion_control, joined_pair
from .programs import Capture, Traced


class Chances(NamedTuple):
    """Delays and faults between the hosts of a pair."""
    delay: float
    loss: float
    lose: frozenset
    double: float
    reorder: float
    seed: int


class Recording:
    """The folder of a recording, and the processes that still run."""

    def __init__(self, options):
        self.options, self.folder = options, Folder(options.out)
        self.captures, self.programs, self.remarks, self.ended = [], [], [], 0

    def capture(self, interface, name, namespace=None):
        """Starts a capture."""
        self.captures.append(Capture(interface, self.folder.file(name), self.options.buffer, namespace))

    def program(self, words, name, namespace=None):
        """Starts a program, as the user who called sudo."""
        user = self.options.user or os.environ.get("SUDO_USER", "root")
        other = user if os.geteuid() == 0 and user != "root" else None
        self.programs.append(Traced(words, self.folder.file(name), namespace, other, sys.stderr))
        return self.programs[-1]

    def finish(self, program):
        """Waits until a program ends, for --seconds, or until Ctrl-C, and reports a program that failed."""
        ended = False
        try:
            with contextlib.nullcontext() if self.options.serve else Part("recording; Ctrl-C ends the programs",
                                                                          beside_programs=True):
                ended = program.wait(self.options.seconds)
        except KeyboardInterrupt:
            kept = "kept" if self.options.no_check else "judged"
            say(NAME, f"interrupted: the programs are ended, and what was recorded is {kept}; Ctrl-C again stops that")
        program.refuse_failed_start()
        if ended and (failure := program.failure()):
            self.remarks.append(failure)

    def remark_on_kernel(self):
        """The congestion control in the namespace of this thread."""
        if name := congestion_control():
            self.remarks.append(f"the kernel's congestion control is {name}")

    def end(self, seconds=0.0, carrier=None):
        """Ends the programs, then the carrier, then the captures: a capture that ended earlier would lack segments that
        the other shows as received."""
        with Part("ending the programs", beside_programs=True):
            for program in self.programs:
                program.stop(seconds)
        with Part("waiting for the last segments"):
            for capture in self.captures:
                capture.wait()
            if carrier:
                carrier.stop()
            for capture in self.captures:
                capture.wait()
        captures, self.captures = self.captures, []
        self.ended = time.time_ns()
        for capture in captures:
            capture.stop()
        self.folder.refuse_full_disk()

    def end_words(self):
        """The importer's argument for the moment when the captures ended."""
        return ["--end", f"{self.ended // 10**9}.{self.ended % 10**9:09d}"]

    def abandon(self):
        """Ends everything that still runs, after an error."""
        for program in self.programs:
            program.stop(0)
        for capture in self.captures:
            capture.process.kill()
            capture.process.wait()

    def pair(self):
        """Records client and server in two namespaces. Returns the importer's arguments."""
        options = self.options
        between, hosts = joined_pair(options.kernel, options.version)
        carrier = Carrier(between,
                          Chances(options.delay, options.loss, options.lose, options.double, options.reorder,
                                  options.seed))
        try:
            with hosts[0].inside():
                self.remark_on_kernel()
            for number, host in enumerate(hosts):
                self.capture(f"w{number}", f"host{number}.pcap", host)
            server_words, client_words = pair_words(options)
            server = self.program(server_words, "host1.log", hosts[1])
            with Part(f"waiting until {server_words[0]} listens", beside_programs=True):
                server.wait_for_listener(options.wait)
            client = self.program(client_words, "host0.log", hosts[0])
            self.finish(client)
            client.stop(0)
            self.end(options.linger, carrier)
        finally:
            carrier.stop()
        if carrier.fault:
            raise Problem(carrier.fault, "use --kernel plain")
        words = []
        for number, option in enumerate(("--zero", "--one")):
            words += ["--capture", str(number), self.folder.file(f"host{number}.pcap")]
            words += ["--calls", str(number), self.folder.file(f"host{number}.log")]
            words += [option, ADDRESSES[number], option, ADDRESSES_6[number]]
        return words + self.end_words()

    def alone(self):
        """Records one program: both hosts in a namespace, or one host with its peer elsewhere. Returns the importer's
        arguments."""
        options = self.options
        namespace = Namespace() if options.namespace else None
        with namespace.inside() if namespace else contextlib.nullcontext():
            self.remark_on_kernel()
        self.capture("lo" if options.namespace else options.interface, "run.pcap", namespace)
        program = self.program(options.program, "run.log", namespace)
        if options.serve:
            say(NAME, "recording until interrupted")
        self.finish(program)
        self.end(0 if options.serve else min(options.linger, 0.1))
        host = "both" if options.namespace else "0"
        return ["--capture", host, self.folder.file("run.pcap"), "--calls", host, self.folder.file("run.log"),
                *self.end_words()]


def pair_words(options):
    """The command lines of server and client."""
    if not options.transfer:
        return shlex.split(options.pair), options.program
    # Without the user's modules, Python starts faster and its log is shorter.
    talk = [sys.executable, "-I", "-S", os.path.join(os.path.dirname(os.path.realpath(__file__)), "talk.py")]
    echo = ["echo"] if options.echo else []
    sending = ["send", ADDRESSES[1], "80", str(options.transfer), str(options.chunk)]
    return talk + ["receive", "80", *echo], talk + sending
