#!/usr/bin/python3
"""Tests how `tcpwit check` reads its standard input: when it answers, what it leaves unread, and how much memory it
needs."""
import contextlib
import itertools
import os
import resource
import select
import shlex
import signal
import socket
import struct
import subprocess
import sys
import tempfile
import time
import unittest

sys.dont_write_bytecode = True
from unproved import kept

TOP = os.path.dirname(os.path.dirname(os.path.abspath(__file__)))
CASES = f"{TOP}/crates/test_cases/data"
TCPWIT = shlex.split(os.environ.get("TCPWIT", f"{TOP}/tcpwit"))
# What `setUpModule` makes the words of `tcpwit check`.
CHECK = []
YES, NO, REFUSED, NO_DEVICE = 0, 1, 2, 5
# How many seconds an answer may take, and how long a program that should wait is watched.
PATIENCE, WATCHED = 30, 0.2
# How many bytes are written to a program that doesn't end.
MOST_WRITTEN = 64_000_000
# How much memory a program may have that doesn't bound its own.
MOST_MEMORY = 1_000_000_000
# A case with more bytes isn't written byte by byte.
MOST_BY_BYTES = 4000
LONGEST = 140_000
HEADER = "trace 1\nskew 0\nmsl 120000000\ngrain 1000\nminrto 1000000\nextra 0\n"
LINES = "10 1 B listen 0 80 4\n12 2 B status 5\n13 1 E ok 5\n14 2 E state LISTEN\n"
STEPS = "10 L 7\n11 D 1 ok 5\n12 L 8\n12 D 2 state LISTEN\n13 L 9\n14 L 10\n"
CASE = HEADER + LINES + "witness 1\n" + STEPS
EXPLAINED = "yes 4 2\n"
# The second step takes a line that no step can take yet.
BROKEN = HEADER + LINES + "witness 1\n10 L 7\n10 L 8\n"
# A segment that arrives more than the msl after it was sent.
LATE = """trace 1
skew 0
msl 30
grain 1000
minrto 1000000
extra 0
10 2 B open 0 4000 80
11 2 E ok 6
20 3 O 0 {sent}
51 4 I 1 {arrived}
witness 1
10 L 7
10 D 2 ok 6
11 L 8
11 M 0 4000 80 0 0 S 65535 1000
20 L 9 1
51 L 10 9
"""
# Texts that end with their first fault, or with a line that shows it, and the answers.
FAULTS = {
    "the first line": ("trace 9\n", "bad trace 1 0 7 header\n"),
    "the third line": ("trace 1\nskew 0\nmsl none\n", "bad trace 3 4 8 number\n"),
    "a header line that begins the witness": ("trace 1\nskew 0\nwitness 1\n", "bad trace 3 0 0 header\n"),
    "the witness without a trace": ("witness 1\n", "bad trace 1 0 0 header\n"),
    "an event line": (HEADER + LINES + "15 1 B halt 5\n", "bad trace 11 7 11 field\n"),
    "a moment that falls": (HEADER + LINES + "9 1 B close 5\n", "bad trace 11 0 1 moment-falls\n"),
    "a witness of another version": (HEADER + LINES + "witness 2\n", "bad trace 11 0 7 number\n"),
    "a witness of version 1 in a trace of version 2": (
        HEADER.replace("trace 1", "trace 2") + "initial 2\n" + LINES + "witness 1\n", None),
    "a witness with a space": (HEADER + LINES + "witness 1 \n", "bad trace 11 0 7 number\n"),
    "the first step": (HEADER + LINES + "witness 1\n10 Q 7\n", "bad witness 2 3 4 field\n"),
    "a step": (HEADER + LINES + "witness 1\n10 L 7\n11 D 1 ok 5\n12 L\n", "bad witness 4 4 4 field\n"),
    "a second witness": (CASE + "witness 1\n", "bad witness 8 0 7 number\n"),
    "a step after a no": (BROKEN + "12 L\n", "bad witness 4 4 4 field\n"),
    "a long line": (HEADER + "a" * (LONGEST + 1) + "\n", "bad trace 7 0 140001 line-too-long\n"),
    "a long first line": ("a" * 3_000_000 + "\n", "bad trace 1 0 3000000 line-too-long\n"),
    "a long step": (HEADER + "witness 1\n" + "a" * (LONGEST + 1) + "\n", "bad witness 2 0 140001 line-too-long\n"),
}
# Texts that are fine so far and then end, and the answers.
ENDS = {
    "nothing": ("", "bad trace 1 0 0 header\n"),
    "within the first line": ("trac", "bad trace 1 0 4 cut\n"),
    "within the header": ("trace 1\nskew 0\n", "bad trace 3 0 0 header\n"),
    "within an event line": (HEADER + LINES[:-4], "bad trace 10 0 16 cut\n"),
    "after the trace": (HEADER + LINES, "bad witness 1 0 0 header\n"),
    "within the first line of the witness": (HEADER + LINES + "witness", "bad trace 11 0 7 cut\n"),
    "before its LF": (HEADER + LINES + "witness 1", "bad trace 11 0 9 cut\n"),
    "after it": (HEADER + LINES + "witness 1\n", "no 0 7 unplaced\n"),
    "within a step": (HEADER + LINES + "witness 1\n10 L 7\n11 D 1 o", "bad witness 3 0 8 cut\n"),
    "after a step": (HEADER + LINES + "witness 1\n10 L 7\n", "no 0 8 unplaced\n"),
    "within a step after a no": (BROKEN + "11 D", "bad witness 4 0 4 cut\n"),
    "after a no": (BROKEN, None),
    "within the last step": (CASE[:-1], "bad witness 7 0 7 cut\n"),
    "after the last step": (CASE, EXPLAINED),
    "within a long line": (HEADER + "a" * (LONGEST + 1), "bad trace 7 0 140001 line-too-long\n"),
    "within a very long line": ("a" * 3_000_000, "bad trace 1 0 3000000 line-too-long\n"),
    "within a long step": (HEADER + "witness 1\n" + "a" * 3_000_000, "bad witness 2 0 3000000 line-too-long\n"),
}
# Runs the program that its words name; prints its status and its peak memory in kilobytes.
MEASURE = """
import os, sys
_, ended, usage = os.wait4(os.spawnvp(os.P_NOWAIT, sys.argv[1], sys.argv[1:]), 0)
print(os.waitstatus_to_exitcode(ended), usage.ru_maxrss, file=sys.stderr)
"""


def setUpModule():
    # The script takes longer to start than the program to answer, and more memory.
    program = [kept("tcpwit")] if TCPWIT == [f"{TOP}/tcpwit"] else TCPWIT
    CHECK[:] = [*program, "check"]


def cut(text):
    """The trace and the witness of a case, if a line begins the witness."""
    lines = [line + b"\n" for line in text.split(b"\n")[:-1]]
    first = lines[0].removesuffix(b"\n").removesuffix(b"\r") if lines else b""
    version = first[-1:] if first in (b"trace 2", b"trace 3", b"trace 4", b"trace 5", b"trace 6") else b"1"
    place = 0
    for line in lines:
        if line in (b"witness " + version + b"\n", b"witness " + version + b"\r\n"):
            return text[:place], text[place:]
        place += len(line)
    return None


def answer_to(text):
    """What the program prints for a text that is a file, and its status."""
    with tempfile.TemporaryFile() as file:
        file.write(text)
        file.seek(0)
        ended = subprocess.run(CHECK, stdin=file, stdout=subprocess.PIPE, timeout=PATIENCE)
    return ended.stdout.decode(), ended.returncode


def answer_to_files(trace, witness):
    """The same for two files."""
    with tempfile.NamedTemporaryFile() as lines, tempfile.NamedTemporaryFile() as steps:
        for file, text in ((lines, trace), (steps, witness)):
            file.write(text)
            file.flush()
        ended = subprocess.run([*CHECK, "--trace", lines.name, "--witness", steps.name], stdout=subprocess.PIPE,
                               timeout=PATIENCE)
    return ended.stdout.decode(), ended.returncode


def answer_by_bytes(text):
    """The same for a pipe each of whose reads gives one byte, until the program ends."""
    source, target = os.pipe2(os.O_DIRECT)
    with subprocess.Popen(CHECK, stdin=source, stdout=subprocess.PIPE) as program:
        os.close(source)
        with contextlib.suppress(BrokenPipeError):
            for place in range(len(text)):
                os.write(target, text[place : place + 1])
        os.close(target)
        return program.stdout.read().decode(), program.wait(PATIENCE)


def bounded():
    """Bounds the memory of the process that begins, in case the program doesn't bound its own."""
    resource.setrlimit(resource.RLIMIT_AS, (MOST_MEMORY, MOST_MEMORY))


@contextlib.contextmanager
def begun(**streams):
    """The program, which is killed at the end."""
    with subprocess.Popen(CHECK, stdout=subprocess.PIPE, preexec_fn=bounded, **streams) as program:
        try:
            yield program
        finally:
            program.kill()


def line_of(program, seconds):
    """The line that the program prints within this time."""
    ready, _, _ = select.select([program.stdout], [], [], seconds)
    return program.stdout.readline().decode() if ready else None


def peak(path):
    """The status of the program, what it printed, and its peak memory in bytes, if its input is this file."""
    with open(path, "rb") as source:
        ended = subprocess.run([sys.executable, "-c", MEASURE, *CHECK], stdin=source, capture_output=True,
                               timeout=10 * PATIENCE)
    status, kilobytes = ended.stderr.split()[-2:]
    return int(status), ended.stdout.decode(), int(kilobytes) * 1024


def status_of(answer):
    return {"yes": YES, "no": NO, "bad": REFUSED}[answer.split()[0]]


class SameAnswers(unittest.TestCase):
    """A case gets the same answer from a file, a pipe and two files."""

    def check_each(self, name, text, wanted):
        found = {"file": answer_to(text)}
        if len(text) <= MOST_BY_BYTES:
            found["bytes"] = answer_by_bytes(text)
        parts = cut(text)
        if parts is not None:
            found["two files"] = answer_to_files(*parts)
        self.assertEqual(found, dict.fromkeys(found, wanted), name)
        return found

    def test_case_files(self):
        with open(f"{CASES}/expected.txt", encoding="ascii") as table:
            expected = dict(line.rstrip("\n").split("\t") for line in table)
        ways = []
        for name, line in itertools.islice(expected.items(), 0, None, 3):
            with open(f"{CASES}/{name}.case", "rb") as file:
                ways += self.check_each(name, file.read(), (line + "\n", status_of(line)))
        # Most are small, and most have a witness.
        self.assertGreater(ways.count("bytes"), ways.count("file") * 3 / 4)
        self.assertGreater(ways.count("two files"), ways.count("file") * 3 / 4)

    def test_examples(self):
        names = [name for name in os.listdir(f"{TOP}/examples") if name.endswith(".case")]
        for name in names:
            with open(f"{TOP}/examples/{name}", "rb") as file:
                text = file.read()
            self.check_each(name, text, answer_to(text))
        self.assertGreater(len(names), 10)

    def test_generated_cases(self):
        for words, wanted in (("bulk_transfer.py 50", "yes 412 309"), ("calls.py 500", "yes 1000 500"),
                              ("colliding_threads.py 100", "yes 200 100"), ("made_again.py 300", None),
                              ("out_of_order.py 300", None)):
            script, *rest = words.split()
            text = subprocess.run([sys.executable, f"{TOP}/bench/{script}", *rest], stdout=subprocess.PIPE,
                                  check=True).stdout
            found = answer_to(text)
            self.assertEqual((found[0].split()[0], found[1]), ("yes", YES), words)
            if wanted is not None:
                self.assertEqual(found[0], wanted + "\n", words)
            self.check_each(words, text, found)

    def test_faults(self):
        for name, (text, wanted) in FAULTS.items():
            found = answer_to(text.encode())
            self.assertEqual(found, (wanted or found[0], REFUSED), name)
            for rest in ("", "witness 1\n10 Q\n", "x"):
                self.check_each(name, (text + rest).encode(), found)

    def test_ends(self):
        for name, (text, wanted) in ENDS.items():
            found = answer_to(text.encode())
            wanted = wanted or found[0]
            self.assertEqual(found, (wanted, status_of(wanted)), name)
            self.check_each(name, text.encode(), found)

    def test_longest_line(self):
        # It is too long with one byte more.
        for length in (LONGEST - 1, LONGEST):
            self.assertEqual(answer_to(f"{HEADER}{'1' * length}\n".encode()),
                             (f"bad trace 7 0 {length} number\n", REFUSED))

    def test_old_bytes_decide(self):
        # However long ago a segment was sent, its bytes are compared first.
        sent = "0fa00050000003e8000000005002ffff00000000"
        for arrived, rule in ((sent, "lifetime"), (sent[:-1] + "1", "copy-differs")):
            self.check_each(rule, LATE.format(sent=sent, arrived=arrived).encode(), (f"no 7 10 {rule}\n", NO))


class Early(unittest.TestCase):
    """The first fault is answered when it is read, and nothing more is read."""

    def test_answer_comes_before_the_rest(self):
        for name, (text, wanted) in FAULTS.items():
            with begun(stdin=subprocess.PIPE) as program:
                program.stdin.write(text.encode())
                program.stdin.flush()
                line = line_of(program, PATIENCE)
                self.assertIsNotNone(line, f"{name}: no answer")
                self.assertEqual(line, wanted or line, name)
                self.assertEqual(program.wait(PATIENCE), REFUSED, name)
                with self.assertRaises(BrokenPipeError, msg=name):
                    program.stdin.write(b"10 1 B close 5\n")
                    program.stdin.flush()
                with contextlib.suppress(BrokenPipeError):
                    program.stdin.close()

    def test_writer_that_goes_on(self):
        for name, (text, wanted) in FAULTS.items():
            with self.subTest(name), begun(stdin=subprocess.PIPE, bufsize=0) as program:
                written, more = 0, b"10 1 B close 5\n" * 4096
                with contextlib.suppress(BrokenPipeError):
                    program.stdin.write(text.encode())
                    while written < MOST_WRITTEN:
                        written += program.stdin.write(more)
                program.stdin.close()
                self.assertEqual(program.stdout.read().decode(), wanted or answer_to(text.encode())[0])
                self.assertEqual(program.wait(PATIENCE), REFUSED)
                # Two buffers, of the pipe and of the program, and what was written together.
                self.assertLess(written, 1_000_000)

    def test_writer_without_end(self):
        with subprocess.Popen(["yes"], stdout=subprocess.PIPE) as writer:
            with begun(stdin=writer.stdout) as program:
                writer.stdout.close()
                self.assertEqual(program.stdout.read().decode(), "bad trace 1 0 1 header\n")
                self.assertEqual(program.wait(PATIENCE), REFUSED)
                self.assertEqual(writer.wait(PATIENCE), -signal.SIGPIPE)

    def test_no_answer_before_the_end(self):
        # Each text that may go on is waited for; then the rest decides.
        for name, (text, _) in ENDS.items():
            with begun(stdin=subprocess.PIPE, bufsize=0) as program:
                program.stdin.write(text.encode())
                self.assertIsNone(line_of(program, WATCHED), name)
                rest = CASE[len(text) :] if CASE.startswith(text) else "\n"
                program.stdin.write(rest.encode())
                program.stdin.close()
                self.assertEqual(program.stdout.read().decode(), answer_to((text + rest).encode())[0], name)
                program.wait(PATIENCE)

    def test_read_that_fails(self):
        # A reset makes the next read fail. After the first fault there is none.
        for text, wanted in ((CASE, "bad device\n"), (HEADER, "bad device\n"), *FAULTS.values()):
            with (socket.create_server(("127.0.0.1", 0)) as server,
                  socket.create_connection(server.getsockname()) as writer):
                reader = server.accept()[0]
                with reader, begun(stdin=reader) as program:
                    reader.close()
                    writer.sendall(text.encode())
                    line = line_of(program, WATCHED if wanted == "bad device\n" else PATIENCE)
                    writer.setsockopt(socket.SOL_SOCKET, socket.SO_LINGER, struct.pack("ii", 1, 0))
                    writer.close()
                    line = line or program.stdout.read().decode()
                    self.assertEqual(line, wanted or line, text[-40:])
                    self.assertEqual(program.wait(PATIENCE), NO_DEVICE if wanted == "bad device\n" else REFUSED)


class Memory(unittest.TestCase):
    """No part of the text is kept but what lines hold."""

    def test_segments(self):
        with tempfile.NamedTemporaryFile() as case:
            words = [sys.executable, f"{TOP}/bench/bulk_transfer.py", "5000", "1000"]
            subprocess.run(words, stdout=case, check=True)
            size = os.path.getsize(case.name)
            status, printed, most = peak(case.name)
        self.assertEqual((status, printed), (YES, "yes 40012 30009\n"))
        self.assertLess(most, size * 2 / 3)

    def test_steps(self):
        # A long witness, whose steps aren't kept.
        with tempfile.NamedTemporaryFile() as case:
            case.write((HEADER + "10 1 B status 5\nwitness 1\n10 L 7\n").encode())
            for _ in range(200):
                case.write(b"10 D 2 badsocket\n" * 10_000)
            case.flush()
            status, printed, most = peak(case.name)
        self.assertEqual((status, printed.split()[:2]), (NO, ["no", "3"]))
        self.assertLess(most, 20_000_000)

    def test_long_line(self):
        with tempfile.NamedTemporaryFile() as case:
            os.truncate(case.name, 200_000_000)
            status, printed, most = peak(case.name)
        self.assertEqual((status, printed), (REFUSED, "bad trace 1 0 200000000 line-too-long\n"))
        self.assertLess(most, 20_000_000)

    def test_line_without_end(self):
        with open("/dev/zero", "rb") as source, begun(stdin=source) as program:
            end = time.monotonic() + 1
            while time.monotonic() < end and program.poll() is None:
                with open(f"/proc/{program.pid}/status", encoding="ascii") as file:
                    most = [int(line.split()[1]) for line in file if line.startswith("VmHWM")]
                time.sleep(0.02)
            self.assertIsNone(program.poll(), "it ended")
        self.assertLess(most[0], 20_000)


if __name__ == "__main__":
    unittest.main()
