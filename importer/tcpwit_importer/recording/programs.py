"""Runs programs under strace, captures with tcpdump, and ends both in the right order: programs first, then
captures."""
import functools
import os
import re
import signal
import subprocess
import tempfile
import time

from ..problem import Problem, one_line
from ..remedies import LARGER_BUFFER

CALLS = ("%network,read,write,readv,writev,?preadv2,?pwritev2,close,?close_range,dup,?dup2,dup3,fcntl,ioctl,"
         "sendfile,splice,?pidfd_open,?pidfd_getfd,clone,?clone3,?fork,?vfork,execve,?execveat,exit,exit_group,"
         "?io_uring_setup")
STRACE = ["strace", "-f", "--seccomp-bpf", "--absolute-timestamps=format:unix,precision:ns", "-xx", "-s", "1048576",
          "-e", "trace=" + CALLS]
# The option that makes strace print the addresses of sockets.
ADDRESSES = "--decode-fds=socket"
# All three buffer flags are needed: with fewer, packets are lost or are still buffered at the end. A packet has at most
# 64 kB, and a buffer has room for four times as many packets of this size as of the default one, which needs 512 kB for
# each.
TCPDUMP = ["tcpdump", "-n", "-s", "130000", "--immediate-mode", "-U", "--time-stamp-precision=nano"]
# Seconds within which tcpdump has to start.
START = 10
# Remedies, by tcpdump's message.
REMEDIES = (("permission to ", "capturing needs root, and the capability NET_RAW in a container"),
            ("No space left", "free some space, or name another folder with --out"),
            ("No such device", "tcpdump -D lists the interfaces; name one with --interface, or leave that out"))
OTHER_REMEDY = "check whether tcpdump alone can capture there: tcpdump -i INTERFACE -w FILE"
# The first line of the log of a program that the system refuses to run, and the reason.
FAILED_START = re.compile(rb"\d+ +[\d.]+ execve\(.*= -1 \w+ \((.*)\)\n")
# The columns of /proc/net/tcp, and the state of a listening socket.
STATE, LISTENS = 3, "0A"


def started(words, install, **options):
    """A process in a session of its own, so that signals reach only it and its children."""
    try:
        return subprocess.Popen(words, start_new_session=True, **options)
    except FileNotFoundError as error:
        raise Problem(f"{words[0]} is not installed", f"install it: apt-get install {install}") from error


@functools.cache
def strace():
    """The words that begin a command of strace. One that can't print addresses doesn't."""
    has_addresses = subprocess.run([STRACE[0], ADDRESSES, "--version"], capture_output=True,
                                   check=False).returncode == 0
    return [*STRACE, ADDRESSES] if has_addresses else STRACE


class Capture:
    """tcpdump on an interface, with a buffer of this many MB."""

    def __init__(self, interface, file, buffer, namespace=None):
        self.errors = tempfile.TemporaryFile()
        self.file = file
        # tcpdump would switch to another user, who may not be allowed to write the file.
        own = ["-Z", "root"] if os.geteuid() == 0 else []
        words = [*TCPDUMP, "-B", str(buffer * 1024), *own, "-i", interface, "-w", file, "tcp"]
        self.process = started(words, "tcpdump", stdin=subprocess.DEVNULL, stdout=subprocess.DEVNULL,
                               stderr=self.errors, preexec_fn=namespace.enter if namespace else None)
        until = time.monotonic() + START
        while b"listening on" not in self.said():
            if self.process.poll() is not None or time.monotonic() > until:
                self.process.kill()
                raise self.problem()
            time.sleep(0.01)

    def problem(self):
        """Why tcpdump doesn't capture, in its own words, without its usual first lines."""
        said = one_line(re.sub(rb".*(listening on|data link type) .*", b"", self.said())).removeprefix("tcpdump: ")
        signs = ((self.file, "name a writable folder with --out"), *REMEDIES)
        return Problem(f"tcpdump printed: {said or 'nothing'}",
                       next((remedy for sign, remedy in signs if sign in said), OTHER_REMEDY))

    def said(self):
        """What tcpdump has printed. tcpdump shares this file's offset; if it moved, tcpdump would overwrite its own
        output."""
        return os.pread(self.errors.fileno(), 1 << 20, 0)

    def wait(self):
        """Waits until no more packets arrive."""
        size = -1
        while size != (size := os.path.getsize(self.file)):
            time.sleep(0.2)

    def stop(self):
        """Ends tcpdump, and fails if it lost packets. What the interface dropped didn't reach the host either."""
        if self.process.poll() is not None:
            raise self.problem()
        self.process.send_signal(signal.SIGINT)
        self.process.wait()
        lost = re.search(rb"(\d+) packets? dropped by kernel", self.said())
        if lost and int(lost[1]):
            raise Problem(f"{self.file}: the capture lost {int(lost[1])} packets", LARGER_BUFFER)


class Traced:
    """A program under strace."""

    def __init__(self, words, log, namespace=None, user=None, output=None):
        self.words, self.log, self.namespace = words, log, namespace
        as_user = ["-u", user] if user else []
        self.process = started([*strace(), *as_user, "-o", log, "--", *words], "strace", stdout=output,
                               stdin=subprocess.DEVNULL if namespace else None,
                               preexec_fn=namespace.enter if namespace else None)

    def wait_for_listener(self, seconds):
        """Waits until the program, which is alone in its namespace, listens for TCP."""
        until = time.monotonic() + seconds
        while not self.listens():
            if self.process.poll() is not None:
                self.refuse_failed_start()
                raise Problem(f"{self.words[0]} ended with status {self.process.returncode} before it listened for TCP",
                              f"see {self.log}, and try the program alone")
            if time.monotonic() > until:
                raise Problem(f"{self.words[0]} did not listen for TCP within {seconds:g} seconds",
                              f"see {self.log}; --wait allows more time")
            time.sleep(0.02)

    def listens(self):
        """Whether a TCP socket of the namespace listens."""
        with self.namespace.inside():
            return any(has_listener(table_of_sockets(name)) for name in ("tcp", "tcp6"))

    def logged(self):
        """The log so far."""
        try:
            with open(self.log, "rb") as file:
                return file.read()
        except FileNotFoundError:
            return b""

    def wait(self, seconds=None):
        """Waits until the program and its children have ended. Returns whether they have."""
        try:
            self.process.wait(seconds)
        except subprocess.TimeoutExpired:
            return False
        return True

    def failure(self):
        """How the program, which has ended, failed, in words; None if it didn't. strace ends with the program's
        status."""
        status = self.process.returncode
        if status == 0:
            return None
        if status < 0:
            return f"{self.words[0]} was ended by {signal.Signals(-status).name}"
        return f"{self.words[0]} ended with status {status}"

    def refuse_failed_start(self):
        """Fails if strace couldn't start the program: there is then no log, or it begins with a failed execve."""
        log = self.logged()
        if not log:
            raise Problem(f"{self.log}: no call of {self.words[0]} was logged",
                          "the lines before this one have strace's reason")
        if failed := FAILED_START.match(log):
            raise Problem(f"{self.words[0]}: {one_line(failed[1])}",
                          "name a program that the recorded user may run, as in a shell")

    def running(self):
        """The program's processes and the daemons that it left: all processes in its namespace except the recorder's
        own."""
        in_namespace = self.namespace.processes() if self.namespace else []
        return set(descendants(self.process.pid)) | set(in_namespace) - set(children(os.getpid()))

    def stop(self, seconds):
        """Ends processes that still run: with SIGTERM, then with SIGKILL if necessary."""
        for number in (signal.SIGTERM, signal.SIGKILL):
            if self.wait(seconds if number == signal.SIGTERM else 0):
                return
            for process in self.running():
                try:
                    os.kill(process, number)
                except ProcessLookupError:
                    pass
            if self.wait(2):
                return
        self.process.kill()
        self.process.wait()


def table_of_sockets(name):
    """The kernel's socket table in the namespace of this thread; empty if the kernel lacks the protocol."""
    try:
        with open("/proc/thread-self/net/" + name, encoding="ascii") as file:
            return file.read()
    except FileNotFoundError:
        return ""


def has_listener(table):
    """Whether a socket of a table in the form of /proc/net/tcp listens."""
    return any(line.split()[STATE] == LISTENS for line in table.splitlines()[1:])


def children(process):
    """All children of a process."""
    try:
        with open(f"/proc/{process}/task/{process}/children", encoding="ascii") as file:
            return [int(child) for child in file.read().split()]
    except OSError:
        return []


def descendants(process):
    """All descendants of a process."""
    found = children(process)
    return found + [each for child in found for each in descendants(child)]
