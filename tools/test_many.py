#!/usr/bin/python3
"""Tests when `tcpwit many` prints its answers, in which order, what it answers to lines that are too long, how much
memory it needs, and how it ends if a read or a write fails."""
import os
import shlex
import socket
import struct
import subprocess
import sys
import tempfile
import unittest

sys.dont_write_bytecode = True

from unproved import kept

TOP = os.path.dirname(os.path.dirname(os.path.abspath(__file__)))
TCPWIT = shlex.split(os.environ.get("TCPWIT", f"{TOP}/tcpwit"))
WORKERS = (1, 2, 4)
# How many seconds an answer may take. A program that has to wait for the next case never prints it.
PATIENCE = 60
REFUSED, NO_DEVICE = 2, 5
HEADER = "trace 1\nskew 0\nmsl 120000000\ngrain 1000\nminrto 1000000\nextra 0\n"
EXPLAINED = HEADER + (
    "10 1 B listen 0 80 4\n12 2 B status 5\n13 1 E ok 5\n14 2 E state LISTEN\n"
    "witness 1\n10 L 7\n11 D 1 ok 5\n12 L 8\n12 D 2 state LISTEN\n13 L 9\n14 L 10\n"
)
YES = "yes 4 2\n"
SPOILT = "trace 9\n"
BAD = "bad trace 1 0 7 header\n"
# A case of a megabyte, which is refused at its first line.
LARGE = SPOILT + "x\n" * 500_000
# Runs the program that its words name; prints its status and its peak memory in kilobytes.
MEASURE = """
import os, sys
_, ended, usage = os.wait4(os.spawnvp(os.P_NOWAIT, sys.argv[1], sys.argv[1:]), 0)
print(os.waitstatus_to_exitcode(ended), usage.ru_maxrss, file=sys.stderr)
"""


def setUpModule():
    # The script can't start with a directory as its input.
    if TCPWIT == [f"{TOP}/tcpwit"]:
        TCPWIT[:] = [kept("tcpwit")]


def command(workers):
    return [*TCPWIT, "many", "--workers", str(workers)]


def many_lines(rounds):
    """A case with many calls, which takes far longer than the small ones."""
    calls = "".join(f"{2 * n} 1 B status 5\n{2 * n + 1} 1 E badsocket\n" for n in range(rounds))
    steps = "".join(f"{2 * n} L {7 + 2 * n}\n{2 * n} D 1 badsocket\n{2 * n + 1} L {8 + 2 * n}\n" for n in range(rounds))
    return HEADER + calls + "witness 1\n" + steps


def read_line(program):
    """The next line that the program prints, or nothing if it takes too long."""
    code = f"import time, os, signal; time.sleep({PATIENCE}); os.kill({program.pid}, signal.SIGKILL)"
    timer = subprocess.Popen([sys.executable, "-c", code])
    line = program.stdout.readline().decode()
    timer.kill()
    timer.wait()
    return line


class Many(unittest.TestCase):
    def test_answers_come_before_the_next_case(self):
        for workers in WORKERS:
            with self.subTest(workers=workers), subprocess.Popen(command(workers), stdin=subprocess.PIPE,
                                                                 stdout=subprocess.PIPE) as program:
                for case, answer in [(EXPLAINED, YES), (SPOILT, BAD), (EXPLAINED, YES), (LARGE, BAD),
                                     (EXPLAINED, YES)] * 3:
                    program.stdin.write(case.encode() + b"end\n")
                    program.stdin.flush()
                    self.assertEqual(read_line(program), answer)
                program.stdin.write(EXPLAINED.encode())
                program.stdin.close()
                self.assertEqual(program.stdout.read().decode(), YES)
                self.assertEqual(program.wait(), REFUSED)

    def test_answers_come_before_the_rest_of_a_case(self):
        # How much of the next case has come: lines, a part of a line, a part of the line that ends it.
        parts = ["trace 1\n", HEADER, HEADER + "10 1 B lis", EXPLAINED[:-1], EXPLAINED, EXPLAINED + "en",
                 EXPLAINED + "end", EXPLAINED + "end\r"]
        for workers in WORKERS:
            with self.subTest(workers=workers), subprocess.Popen(command(workers), stdin=subprocess.PIPE,
                                                                 stdout=subprocess.PIPE) as program:
                for count in (1, 2, 31, 32, 33, 100):
                    for part in parts:
                        program.stdin.write(((SPOILT + "end\n") * (count - 1) + EXPLAINED + "end\r\n" + part).encode())
                        program.stdin.flush()
                        self.assertEqual([read_line(program) for _ in range(count)], [BAD] * (count - 1) + [YES])
                        program.stdin.write((EXPLAINED + "end\n")[len(part) :].encode() if not part.endswith("\r")
                                            else b"\n")
                        program.stdin.flush()
                        self.assertEqual(read_line(program), YES)
                program.stdin.close()
                self.assertEqual((program.stdout.read(), program.wait()), (b"", REFUSED))

    def test_order(self):
        # The first case is answered long after thousands of others.
        cases = [many_lines(100_000), *[EXPLAINED, SPOILT, SPOILT] * 2000, many_lines(20_000), EXPLAINED]
        wanted = "yes 200000 100000\n" + (YES + BAD + BAD) * 2000 + "yes 40000 20000\n" + YES
        with tempfile.TemporaryFile() as source:
            for case in cases:
                source.write(case.encode() + b"end\n")
            for workers in (*WORKERS, 64):
                source.seek(0)
                ended = subprocess.run(command(workers), stdin=source, stdout=subprocess.PIPE, timeout=20 * PATIENCE)
                self.assertEqual((ended.stdout.decode(), ended.returncode), (wanted, REFUSED), workers)

    def test_lines_that_are_too_long(self):
        # A line has at most 140,000 bytes, not counting its end. The answer has the length of a longer one, whatever
        # follows it.
        cases, answers = [], []
        for length in (140_001, 140_002, 140_003, 1_000_000):
            for end in ("\n", "\r\n"):
                line, long = "a" * length + end, f"0 {length} line-too-long\n"
                for before, place in (("", "trace 1"), (HEADER, "trace 7"), (EXPLAINED, "witness 8")):
                    for after in ("", "x\n", "witness 1\n", line, "ends\n" + line + " end\n"):
                        cases.append(before + line + after)
                        answers.append(f"bad {place} {long}")
                # After an earlier fault, it doesn't matter.
                cases += [SPOILT + line, EXPLAINED + "14 L x\n" + line, EXPLAINED]
                answers += [BAD, "bad witness 8 5 6 number\n", YES]
        text = "".join(case + "end\n" for case in cases)
        for last, answer in (("a" * 300_000, "bad trace 7 0 300000"), ("end" * 50_000 + "\r", "bad trace 7 0 150001")):
            for workers in WORKERS:
                ended = subprocess.run(command(workers), input=(text + HEADER + last).encode(), stdout=subprocess.PIPE,
                                       timeout=PATIENCE)
                self.assertEqual(ended.stdout.decode().splitlines(True), [*answers, answer + " line-too-long\n"])

    def test_answers_to_long_lines_are_those_of_check(self):
        lines = [*(b"a" * 140_003 + end for end in (b"\n", b"\r\n", b"\r\r\n", b"\0\n")),
                 b"\r" * 200_000 + b"\n", b"witness 1 " * 20_000 + b"\n"]
        befores = [b"", HEADER.encode(), HEADER.encode() + b"10 1 B listen\n", EXPLAINED.encode(), b"trace 5\n",
                   b"x\n" * 3]
        cases = [before + line + after for line in lines for before in befores
                 for after in (b"", b"witness 1\n1 L 2\n")]
        wanted = b"".join(subprocess.run([*TCPWIT, "check"], input=case, stdout=subprocess.PIPE).stdout
                          for case in cases)
        for workers in WORKERS:
            ended = subprocess.run(command(workers), input=b"".join(case + b"end\n" for case in cases),
                                   stdout=subprocess.PIPE, timeout=PATIENCE)
            self.assertEqual(ended.stdout, wanted)

    def test_memory(self):
        count = 400
        for workers in WORKERS:
            words = [sys.executable, "-c", MEASURE, *command(workers)]
            with tempfile.TemporaryFile() as answers:
                with subprocess.Popen(words, stdin=subprocess.PIPE, stdout=answers, stderr=subprocess.PIPE) as program:
                    for _ in range(count):
                        program.stdin.write(LARGE.encode() + b"end\n" + EXPLAINED.encode() + b"end\n")
                    program.stdin.close()
                    ended, kilobytes = program.stderr.read().split()[-2:]
                answers.seek(0)
                self.assertEqual(answers.read().decode(), (BAD + YES) * count)
            self.assertEqual(int(ended), REFUSED)
            # A process has 14 MB until it runs the program; a list doubles as it grows.
            self.assertLess(int(kilobytes), 16_000 + 2100 * (workers + 2), workers)

    def test_memory_of_long_lines(self):
        # Neither the line nor the rest of its case is kept.
        size, piece = 60_000_000, b"a" * 1_000_000
        for workers in WORKERS:
            words = [sys.executable, "-c", MEASURE, *command(workers)]
            with subprocess.Popen(words, stdin=subprocess.PIPE, stdout=subprocess.PIPE,
                                  stderr=subprocess.PIPE) as program:
                for before in (HEADER, EXPLAINED):
                    program.stdin.write(before.encode())
                    for end in (b"", b"\n"):
                        for _ in range(size // len(piece)):
                            program.stdin.write(piece + end)
                        program.stdin.write(b"\n")
                    program.stdin.write(b"end\n" + EXPLAINED.encode() + b"end\n")
                program.stdin.close()
                answers = program.stdout.read().decode()
                ended, kilobytes = program.stderr.read().split()[-2:]
            self.assertEqual(answers,
                             f"bad trace 7 0 {size} line-too-long\n{YES}bad witness 8 0 {size} line-too-long\n{YES}")
            self.assertEqual(int(ended), REFUSED)
            self.assertLess(int(kilobytes), 16_000 + 2100 * (workers + 2), workers)

    def test_read_that_fails(self):
        for workers in WORKERS:
            with (socket.create_server(("127.0.0.1", 0)) as server,
                  socket.create_connection(server.getsockname()) as writer):
                reader = server.accept()[0]
                with reader, subprocess.Popen(command(workers), stdin=reader, stdout=subprocess.PIPE) as program:
                    reader.close()
                    writer.sendall((EXPLAINED + "end\n" + SPOILT + "end\n" + EXPLAINED).encode())
                    self.assertEqual(read_line(program) + read_line(program), YES + BAD)
                    # A reset: the next read fails.
                    writer.setsockopt(socket.SOL_SOCKET, socket.SO_LINGER, struct.pack("ii", 1, 0))
                    writer.close()
                    self.assertEqual(program.stdout.read().decode(), "bad device\n")
                    self.assertEqual(program.wait(), NO_DEVICE)
            directory = os.open("/", os.O_RDONLY)
            ended = subprocess.run(command(workers), stdin=directory, stdout=subprocess.PIPE)
            os.close(directory)
            self.assertEqual((ended.stdout.decode(), ended.returncode), ("bad device\n", NO_DEVICE))

    def test_write_that_fails(self):
        cases = ((EXPLAINED + "end\n") * 3000).encode()
        for workers in WORKERS:
            with open("/dev/full", "wb", buffering=0) as full:
                self.assertEqual(subprocess.run(command(workers), input=cases, stdout=full,
                                                timeout=PATIENCE).returncode, NO_DEVICE)


if __name__ == "__main__":
    unittest.main()
