"""Tests what the commands print, and how they fail."""
import contextlib
import fnmatch
import gzip
import io
import os
import subprocess
import tempfile
import time
import unittest
from unittest import mock

from tcpwit_importer.capture.segments import ACK, FIN, PSH, RST
from tcpwit_importer.commands.tcpwit_import import main as importing
from tcpwit_importer.commands.tcpwit_record import main as recording
from tcpwit_importer.recording.folder import FOLDER

from .wire import ONE, SECOND, ZERO, Talk, address, ethernet, ip_packet, log, pcap, segment

TOP = os.path.dirname(os.path.dirname(os.path.realpath(__file__)))
AT = 100 * SECOND
CLIENT = [(7, AT - 3 * 10**6, "socket(AF_INET, SOCK_STREAM, IPPROTO_TCP) = 3"),
          (7, AT - 10**6, f"connect(3, {address(ONE)}, 16) = 0"),
          (7, AT + 6 * 10**6, 'write(3, "hello", 5) = 5'),
          (7, AT + 8 * 10**6, "close(3) = 0"),
          (7, AT + 9 * 10**6, "exit_group(0) = ?"),
          (7, AT + 9 * 10**6, "+++ exited with 0 +++")]
SERVER = [(8, AT - SECOND, "socket(AF_INET, SOCK_STREAM, IPPROTO_TCP) = 3"),
          (8, AT - SECOND + 1000, f"bind(3, {address(ONE)}, 16) = 0"),
          (8, AT - SECOND + 2000, "listen(3, 5) = 0"),
          (8, AT - SECOND + 3000, f"accept(3, {address(ZERO)}, [16]) = 4"),
          (8, AT + 11 * 10**6, 'read(4, "hello", 99) = 5'),
          (8, AT + 13 * 10**6, 'read(4, "", 99) = 0'),
          (8, AT + 14 * 10**6, "exit_group(0) = ?"),
          (8, AT + 14 * 10**6, "+++ exited with 0 +++")]


def talk(**options):
    """A connection that carries five bytes, then both ends close."""
    found = Talk(at=AT, **options)
    found.at = AT + 7 * 10**6
    found.send(0, ACK | PSH, b"hello")
    found.send(1)
    found.send(0, ACK | FIN)
    found.at = AT + 15 * 10**6
    found.send(1, ACK | FIN)
    found.send(0)
    return found


REFUSED = [CLIENT[0], (*CLIENT[1][:2], CLIENT[1][2].replace("= 0", "= -1 ECONNREFUSED (x)")), *CLIENT[3:]]


def refusal():
    """A connection to a port at which nothing listens."""
    found = talk()
    found.frames = {0: found.frames[0][:1], 1: found.frames[1][:1]}
    found.next, found.at = {0: 1001, 1: 0}, AT + 2 * 10**6
    found.send(1, ACK | RST)
    return found


def run(*words, command=importing):
    """Runs a command in this process. Returns status, standard output and standard error."""
    out, error = io.StringIO(), io.StringIO()
    with contextlib.redirect_stdout(out), contextlib.redirect_stderr(error):
        try:
            status = command(list(words))
        except SystemExit as ended:
            status = ended.code
    return status, out.getvalue(), error.getvalue()


class WithFiles(unittest.TestCase):
    """Captures and logs of a connection, in a folder of their own."""

    def setUp(self):
        folder = tempfile.TemporaryDirectory()
        self.addCleanup(folder.cleanup)
        self.folder = folder.name
        self.captures = talk().write(self.folder)
        self.logs = self.write_logs(CLIENT, SERVER)

    def write_logs(self, client, server):
        log(f"{self.folder}/s0.log", client)
        log(f"{self.folder}/s1.log", server)
        return ["--calls", "0", f"{self.folder}/s0.log", "--calls", "1", f"{self.folder}/s1.log"]

    def refused(self, words, cause, command=importing):
        status, out, error = run(*words, command=command)
        self.assertEqual((status, out), (2, ""), error)
        self.assertIn(cause, error)
        self.assertNotIn("Traceback", error)
        # A cause, and a line with the remedy.
        self.assertRegex(error, r"^tcpwit-\w+: .+\n  .+\n$")


class Command(WithFiles):
    def test_a_whole_trace(self):
        status, out, error = run(*self.captures, *self.logs)
        self.assertEqual(status, 0, error)
        lines = out.splitlines()
        self.assertEqual(lines[:10],
                         ["trace 5", "skew 0", "msl 60000000", "grain 4000", "minrto 200000", "extra 1", "initial 6928",
                          "hosts 2", "congestion full", "slack 1000000"])
        moments = [int(line.split()[0]) for line in lines[10:]]
        self.assertEqual(moments, sorted(moments))
        self.assertEqual([line.split(" ", 2)[2][:14] for line in lines[10:]][:6],
                         ["B listen 1 80 ", "E ok 2", "B accept 2", "B open 0 4000 ", "E ok 1", "B await 1"])
        self.assertEqual(sum(line.split()[2] in "OI" for line in lines[10:]), 16)

    def test_segments_above_the_mss(self):
        self.captures = talk(options=b"\2\4\0\4").write(self.folder)
        for words, count in (([], 18), (["--wire"], 16)):
            status, out, error = run(*self.captures, *self.logs, *words)
            self.assertEqual((status, "segments that an offload enlarged" in error), (0, not words), error)
            self.assertEqual(sum(line.split()[2] in "OI" for line in out.splitlines()[10:]), count)
        self.assertIn("header: trace 5", error)

    def test_header_lines_are_chosen(self):
        _, out, _ = run(*self.captures, *self.logs, "--version", "1", "--msl", "5", "--skew", "7")
        self.assertEqual(out.splitlines()[:3], ["trace 1", "skew 7", "msl 5"])

    def test_how_much_of_congestion_control_is_judged(self):
        for word in ("full", "recovery", "none"):
            status, out, error = run(*self.captures, *self.logs, "--congestion", word)
            lines = out.splitlines()
            # Below the level `full`, version 6 reads SACK blocks.
            version, more = ("5", []) if word == "full" else ("6", ["sender cubic", "growth any"])
            self.assertEqual((status, lines[0], lines[6:9]),
                             (0, f"trace {version}", ["initial 6928", "hosts 2", f"congestion {word}"]), error)
            plain = run(*self.captures, *self.logs)[1].splitlines()
            self.assertEqual(lines[9:], [plain[9], *more, *plain[10:]])
            older = run(*self.captures, *self.logs, "--congestion", word, "--version", "5")[1].splitlines()
            self.assertEqual(older, [*plain[:8], f"congestion {word}", *plain[9:]])
        _, out, _ = run(*self.captures[:3], *self.logs[:3], "--congestion", "none")
        self.assertEqual(out.splitlines()[:9:8], ["trace 6", "congestion none"])
        self.assertEqual(out.splitlines()[7], "hosts 1")
        self.assertEqual(run(*self.captures, *self.logs, "--version", "4")[1].splitlines()[8], "congestion full")
        self.refused([*self.captures, *self.logs, "--congestion", "none", "--version", "2"],
                     "format version 2 has no line congestion")

    def test_version_6(self):
        words = [*self.captures, *self.logs, "--version", "6"]
        status, out, error = run(*words)
        lines = out.splitlines()
        self.assertEqual((status, lines[0], lines[7:12]),
                         (0, "trace 6", ["hosts 2", "congestion recovery", "slack 1000000", "sender cubic",
                                         "growth any"]), error)
        # The events are the same.
        self.assertEqual(lines[12:], run(*self.captures, *self.logs)[1].splitlines()[10:])
        self.assertEqual(run(*words, "--congestion", "none", "--slack", "0")[1].splitlines()[8:10],
                         ["congestion none", "slack 0"])
        self.assertEqual(run(*self.captures[:3], *self.logs[:3], *words[-2:])[1].splitlines()[7], "hosts 1")

    def test_version_6_has_no_level_full(self):
        remedy = "format version 6 has no level full\n  leave out --version, or give {} recovery\n"
        for given, option in ((["--congestion", "full"], "--congestion"), (["--from", "full"], "--from"),
                              (["--congestion", "none", "--from", "full"], "--from")):
            self.refused([*self.captures, *self.logs, "--version", "6", *given], remedy.format(option))
            with mock.patch("os.geteuid", return_value=0):
                self.refused(["--transfer", "5", "--version", "6", *given], remedy.format(option), recording)

    def test_how_late_a_duty_may_be(self):
        for slack in ("any", "0", "20000", str(10**18)):
            status, out, error = run(*self.captures, *self.logs, "--slack", slack)
            self.assertEqual((status, out.splitlines()[9]), (0, f"slack {slack}"), error)
        self.assertEqual(run(*self.captures[:3], *self.logs[:3], "--slack", "any")[1].splitlines()[7:10],
                         ["hosts 1", "congestion full", "slack any"])
        self.refused([*self.captures, *self.logs, "--slack", "any", "--version", "4"],
                     "format version 4 has no line slack")
        for wrong in ("", "-1", "1.5", "Any", str(10**18 + 1)):
            self.assertEqual(run(*self.captures, *self.logs, "--slack=" + wrong)[0], 2)

    def ending(self, *words):
        """The last call of a trace: how many microseconds it comes after the line before it, whether its thread is the
        last, and its words."""
        status, out, error = run(*words)
        self.assertEqual(status, 0, error)
        rows = [line.split(" ", 2) for line in out.splitlines()[10:]]
        before, begin, end = rows[-3:]
        self.assertEqual((begin[0], begin[1]), (end[0], end[1]))
        threads = [int(thread) for _, thread, _ in rows[:-2]]
        return int(begin[0]) - int(before[0]), int(begin[1]) > max(threads), begin[2], end[2]

    def test_a_call_that_changes_nothing_ends_the_trace(self):
        call = (True, "B status 0", "E badsocket")
        # The last segment is received 18 ms after the first one was sent, and the connection's last call ends before
        # it.
        self.assertEqual(self.ending(*self.captures, *self.logs), (0, *call))
        later = [*CLIENT, (99, AT + 5 * SECOND, "close(99) = -1 EBADF (Bad file descriptor)")]
        self.assertEqual(self.ending(*self.captures, *self.write_logs(later, SERVER)), (5 * 10**6 - 18_000, *call))
        # A call that didn't end, in the log of the other host.
        later = [*SERVER, (99, AT + 6 * SECOND, "recvfrom(9, <unfinished ...>")]
        self.assertEqual(self.ending(*self.captures, *self.write_logs(CLIENT, later)), (6 * 10**6 - 18_000, *call))
        for version in ("1", "2", "4"):
            _, out, _ = run(*self.captures, *self.write_logs(CLIENT, SERVER), "--version", version)
            self.assertEqual(out.splitlines()[-1].split(" ", 2)[2], "E badsocket")

    def test_a_packet_of_another_connection_shows_that_the_recording_went_on(self):
        other = Talk(zero=("10.9.0.1", 5000), one=("10.9.0.2", 90), at=AT + 7 * SECOND)
        found = talk()
        for host in (0, 1):
            found.frames[host] += other.frames[host]
        # Its last segment arrives 5 ms after its first one was sent.
        self.assertEqual(self.ending(*found.write(self.folder), *self.logs)[0], 7 * 10**6 + 5000 - 18_000)
        self.assertEqual(self.ending(*found.write(self.folder)[:3], *self.logs[:3])[0], 7 * 10**6 + 4000 - 17_000)

    def test_the_end_of_the_recording_is_given(self):
        self.assertEqual(self.ending(*self.captures, *self.logs, "--end", "110.25")[0], 10_250_000 - 18_000)
        # Not before the last line.
        self.assertEqual(self.ending(*self.captures, *self.logs, "--end", "100")[0], 0)
        for wrong in ("", "x", "-1", "1.", ".5", "1e3", "1.0000000001"):
            self.assertEqual(run(*self.captures, *self.logs, "--end=" + wrong)[0], 2)

    def test_the_end_by_the_clock_of_host_1(self):
        late = talk()
        late.frames[1] = [(moment + 5 * SECOND, frame) for moment, frame in late.frames[1]]
        server = [(process, moment + 5 * SECOND, text) for process, moment, text in SERVER]
        server.append((99, AT + 8 * SECOND, "close(99) = -1 EBADF (Bad file descriptor)"))
        self.assertEqual(self.ending(*late.write(self.folder), *self.write_logs(CLIENT, server))[0], 3 * 10**6 - 18_000)

    def test_a_half_trace(self):
        status, out, _ = run(*self.captures[:3], *self.logs[:3])
        self.assertEqual((status, out.splitlines()[0], out.splitlines()[7]), (0, "trace 5", "hosts 1"))
        self.assertTrue(all(line.split()[3] != "1" for line in out.splitlines()[10:] if line.split()[2] in "OI"))
        _, out, _ = run(*self.captures[:3], *self.logs[:3], "--version", "3")
        self.assertEqual((out.splitlines()[0], out.splitlines()[7]), ("trace 3", "half 0"))

    def test_one_capture_of_both_hosts(self):
        status, out, error = run("--capture", "both", f"{self.folder}/c1.pcap", *self.logs)
        self.assertEqual(status, 0, error)
        letters = [line.split()[2] for line in out.splitlines()[10:] if line.split()[2] in "OI"]
        self.assertEqual(letters, ["O", "I"] * 8)

    def test_clocks_that_differ(self):
        late = talk()
        late.frames[1] = [(moment + 5 * SECOND, frame) for moment, frame in late.frames[1]]
        logs = self.write_logs(CLIENT, [(process, moment + 5 * SECOND, text) for process, moment, text in SERVER])
        status, out, error = run(*late.write(self.folder), *logs)
        self.assertEqual(status, 0)
        self.assertIn("host 1 is 5000000.000 us ahead", error)
        self.assertEqual(out, run(*talk().write(self.folder), *self.write_logs(CLIENT, SERVER))[1])

    def test_several_connections(self):
        two = [talk(zero=("10.9.0.1", port)) for port in (4000, 4001)]
        for host in (0, 1):
            two[0].frames[host] += two[1].frames[host]
        client = CLIENT[:4] + [(9, moment, text) for _, moment, text in CLIENT[:4]]
        server = SERVER[:4] + [(8, AT - SECOND + 4000, f"accept(3, {address(('10.9.0.1', 4001))}, [16]) = 5")]
        words = [*two[0].write(self.folder), *self.write_logs(sorted(client, key=lambda line: line[1]), server)]
        status, out, _ = run(*words)
        self.assertEqual((status, out.count(" B open "), out.count(" B listen ")), (0, 2, 1))
        self.refused([*words, "--each", "connection"], "2 traces")
        status, out, _ = run(*words, "--each", "connection", "--out", f"{self.folder}/out", "--no-check")
        self.assertEqual((status, out, len(os.listdir(f"{self.folder}/out"))), (0, "", 2))
        for name in os.listdir(f"{self.folder}/out"):
            with open(f"{self.folder}/out/{name}", encoding="ascii") as file:
                text = file.read()
            self.assertEqual((text.count(" B open "), text.count(" B accept ")), (1, 1))

    def test_each_connection_of_a_server_has_its_own_bytes(self):
        two = []
        for port, text in ((4000, b"abc"), (4001, b"xyz")):
            two.append(Talk(zero=("10.9.0.1", port), at=AT))
            two[-1].send(1, ACK | PSH, text)
        for host in (0, 1):
            two[0].frames[host] += two[1].frames[host]
        server = SERVER[:4] + [(8, AT - SECOND + 4000, f"accept(3, {address(('10.9.0.1', 4001))}, [16]) = 5"),
                               (8, AT + 10**7, "sendfile(4, 9, [0] => [3], 3) = 3"),
                               (8, AT + 10**7 + 1000, "sendfile(5, 9, [0] => [3], 3) = 3")]
        client = CLIENT[:2] + [(9, moment, text) for _, moment, text in CLIENT[:2]]
        status, out, error = run(*two[0].write(self.folder),
                                 *self.write_logs(sorted(client, key=lambda line: line[1]), server))
        self.assertEqual(status, 0, error)
        self.assertEqual([line.split()[-1] for line in out.splitlines() if " B send " in line],
                         [b"abc".hex(), b"xyz".hex()])

    def test_other_connections_are_left_out(self):
        other = Talk(zero=("10.9.0.1", 5000), one=("10.9.0.9", 22), at=AT)
        whole = talk()
        for host in (0, 1):
            whole.frames[host] += other.frames[host]
        status, _, error = run(*whole.write(self.folder), *self.logs)
        self.assertEqual(status, 0)
        self.assertRegex(error,
                         r"left out: 1 connections that no call .*first: .*packet \d+: 10.9.0.1:5000 -> 10.9.0.9:22")

    def test_errors_of_files(self):
        empty = f"{self.folder}/empty"
        with open(empty, "wb"):
            pass
        self.refused([], "no capture is given")
        self.refused(self.captures, "no log of calls is given")
        self.refused([*self.captures, "--calls", "0", empty], "no system call")
        self.refused(["--capture", "0", empty, *self.logs[:3]], "neither pcap nor pcapng")
        self.refused(["--capture", "2", empty, *self.logs], "no such host")
        self.refused(["--capture", "0", self.folder, *self.logs[:3]], "Is a directory")
        self.refused([*self.captures, "--calls", "0", self.captures[2]], "no system call")
        self.refused([*self.captures, *self.logs, "--out", "/nowhere/at/all", "--no-check"], "No such file")
        self.refused([*self.captures[:3], *self.logs], "a host has a log but no capture")
        self.refused([*self.captures, *self.logs[3:]], "call the recorded host 0")
        with open(self.captures[2], "rb") as file:
            whole = file.read()
        for size in (20, 30, 60, len(whole) - 1):
            with open(f"{self.folder}/short.pcap", "wb") as file:
                file.write(whole[:size])
            self.refused(["--capture", "0", f"{self.folder}/short.pcap", *self.logs[:3]], "ends within packet")

    def test_compressed_files(self):
        out = run(*self.captures, *self.logs)[1]
        for name in ("c0.pcap", "s0.log"):
            with open(f"{self.folder}/{name}", "rb") as file, gzip.open(f"{self.folder}/{name}.gz", "wb") as compressed:
                compressed.write(file.read())
        words = [word + ".gz" if word.endswith(("c0.pcap", "s0.log")) else word
                 for word in (*self.captures, *self.logs)]
        self.assertEqual(run(*words)[:2], (0, out))
        with open(f"{self.folder}/c0.pcap.gz", "rb") as file:
            whole = file.read()
        for number, damaged, cause in ((0, whole[:-9], "c0.pcap.gz: ends within packet"),
                                       (1, whole[:20] + b"x" * 30 + whole[50:], "c0.pcap.gz: "),
                                       (2, whole[:2] + b"xx" + whole[4:], "c0.pcap.gz: Unknown compression method")):
            with self.subTest(number), open(f"{self.folder}/c0.pcap.gz", "wb") as file:
                file.write(damaged)
            self.refused(words, cause)
        with open(f"{self.folder}/s0.log.gz", "r+b") as file:
            file.truncate(99)
        self.refused([*self.captures, *words[6:]], "s0.log.gz: Compressed file ended before")

    def test_a_trace_that_cannot_be_completed_is_not_written(self):
        # The capture ends before the bytes that sendfile sent.
        cut = talk()
        cut.frames = {host: cut.frames[host][:3] for host in (0, 1)}
        client = [(*line[:2], "sendfile(3, 9, [0] => [5], 5) = 5") if "write" in line[2] else line for line in CLIENT]
        words = [*cut.write(self.folder), *self.write_logs(client, SERVER[:4])]
        self.refused(words, "byte 1 of 10.9.0.1:4000 is neither in the log nor in the capture")
        self.refused([*words, "--no-check", "--out", f"{self.folder}/run.trace"],
                     "is neither in the log nor in the capture")
        self.assertFalse(os.path.exists(f"{self.folder}/run.trace"))

    def test_files_of_another_run(self):
        words = [*self.captures, *self.logs, "--no-check", "--out"]
        with open(f"{self.folder}/run.case", "w", encoding="ascii") as file:
            file.write("the case of an earlier trace")
        self.assertEqual(run(*words, f"{self.folder}/run.trace")[0], 0)
        self.assertFalse(os.path.exists(f"{self.folder}/run.case"))
        os.mkdir(f"{self.folder}/out")
        for name in ("run.trace", "run.case", "notes"):
            with open(f"{self.folder}/out/{name}", "w", encoding="ascii"):
                pass
        self.assertEqual(run(*words, f"{self.folder}/out")[0], 0)
        self.assertEqual(sorted(os.listdir(f"{self.folder}/out")), ["notes", "run.trace"])
        os.rename(f"{self.folder}/out/run.trace", f"{self.folder}/out/other.case")
        self.refused([*words, f"{self.folder}/out"], "out has 1 traces and cases of another run, such as other.case")
        self.assertEqual(sorted(os.listdir(f"{self.folder}/out")), ["notes", "other.case"])

    def test_a_connection_that_times_out(self):
        lost = talk()
        lost.frames = {0: lost.frames[0][:1], 1: []}
        timeout = [CLIENT[0], (*CLIENT[1][:2], CLIENT[1][2].replace("= 0", "= -1 ETIMEDOUT (x)")), *CLIENT[3:]]
        words = [*lost.write(self.folder), *self.write_logs(timeout, SERVER[:3])]
        self.refused(words, "c1.pcap: the capture is empty")
        status, out, error = run(*words, "--zero", ZERO[0], "--one", ONE[0])
        self.assertEqual(status, 0, error)
        self.assertEqual([line.split(" ", 2)[2][:9] for line in out.splitlines()[10:]],
                         ["B listen ", "E ok 2", "B open 0 ", "E ok 1", "B await 1", "O 0 0fa00", "E timeout",
                          "B close 1", "E ok", "B status ", "E badsock"])
        self.assertIn("0 of 1 connections were established", error)
        self.assertIn("its SYN was never answered)\n", error)
        self.refused([*words, "--one", "host"], "host isn't an address")

    def test_a_capture_without_segments(self):
        udp = bytearray(ip_packet(ZERO, ONE, segment(ZERO, ONE, 1, 2, ACK)))
        udp[9] = 17
        pcap(f"{self.folder}/udp.pcap", [(AT, ethernet(bytes(udp)))])
        self.refused(["--capture", "0", f"{self.folder}/udp.pcap", *self.logs[:3]], "no TCP segment")

    def test_packets_that_the_capture_lost(self):
        gap = talk()
        del gap.frames[1][3]
        words = [*gap.write(self.folder), *self.logs]
        self.refused(words, "byte 1 that 10.9.0.1:4000 sent was acknowledged and is not in the capture")
        self.assertEqual(run(*words, "--keep-gaps")[0], 0)
        # A segment lost in transit isn't a gap.
        lost = talk()
        lost.frames[1] = lost.frames[1][:3]
        lost.frames[0] = lost.frames[0][:4]
        self.assertEqual(run(*lost.write(self.folder), *self.logs)[0], 0)

    def test_calls_that_the_log_lacks(self):
        words = [*self.captures, *self.write_logs([line for line in CLIENT if "write" not in line[2]], SERVER)]
        self.refused(words, "5 bytes that 10.9.0.1:4000 sent are in no call")
        self.assertEqual(run(*words, "--keep-gaps")[0], 0)
        # A call that didn't end may have sent any bytes.
        begun = [(7, AT + 6 * 10**6, 'write(3, "hello", 5 <unfinished ...>') if "write" in line[2] else line
                 for line in CLIENT if "close" not in line[2]]
        self.assertEqual(run(*self.captures, *self.write_logs(begun, SERVER))[0], 0)

    def test_calls_of_one_end_only(self):
        nothing = [(7, AT, "socket(AF_UNIX, SOCK_STREAM, 0) = 3")]
        begun = "10.9.0.1:4000 -> 10.9.0.2:80 has calls of host {} only: no call of host {} {} it; likely, {}"
        elsewhere = "strace didn't follow the process that did, or the kernel did it alone"
        self.refused([*self.captures, *self.write_logs(nothing, SERVER)], begun.format(1, 0, "opened", elsewhere))
        self.refused([*self.captures, *self.write_logs(CLIENT, nothing), "--keep-gaps"],
                     begun.format(0, 1, "listened for", elsewhere))
        before = f"its socket was opened before the log began (see {self.folder}/s1.log, line 1)"
        self.refused([*self.captures, *self.write_logs(CLIENT, SERVER[3:])], begun.format(0, 1, "listened for", before))
        unknown = [CLIENT[0], (7, AT, "recvmsg(3, {msg_iov=[]}, 0) = 0")]
        self.refused([*self.captures, *self.write_logs(unknown, SERVER)],
                     begun.format(1, 0, "opened",
                                  f"recvmsg did, in a way that the importer doesn't know (see {self.folder}/s0.log, "
                                  "line 2)"))
        # Only a call sends a FIN, so one must have accepted the connection.
        self.refused([*self.captures, *self.write_logs(CLIENT, SERVER[:3])], begun.format(0, 1, "accepted", elsewhere))

    def test_an_end_that_needs_no_calls(self):
        # The server's stack completes the handshake before a call accepts the connection.
        whole = talk()
        whole.frames = {host: whole.frames[host][:5] for host in (0, 1)}
        status, _, error = run(*whole.write(self.folder), *self.write_logs(CLIENT, SERVER[:3]))
        self.assertEqual(status, 0, error)
        # A host on which nothing listens refuses the connection.
        self.assertEqual(run(*refusal().write(self.folder), *self.write_logs(REFUSED, SERVER[:1]))[0], 0)

    def test_connections_that_were_not_established(self):
        words = [*refusal().write(self.folder), *self.write_logs(REFUSED, SERVER[:1])]
        self.assertIn(f"tcpwit-import: 0 of 1 connections were established (first that wasn't: {self.folder}/c0.pcap, "
                      "packet 1: 10.9.0.1:4000 -> 10.9.0.2:80; its SYN was answered by a reset)\n",
                      run(*words)[2])
        self.assertNotIn("were established", run(*words, "--quiet")[2])
        half = talk()
        half.frames = {0: half.frames[0][:2], 1: []}
        error = run(*half.write(self.folder)[:3], *self.write_logs(CLIENT, SERVER)[:3])[2]
        self.assertIn("0 of 1 connections were established", error)
        self.assertIn("its SYN-ACK was never acknowledged)\n", error)
        self.assertNotIn("were established", run(*talk().write(self.folder), *self.logs)[2])

    def test_a_connection_that_began_before_the_capture(self):
        late = talk()
        late.frames[0] = late.frames[0][3:]
        words = [*late.write(self.folder), *self.logs]
        self.refused(words, "begins before the capture")
        self.refused([*words, "--skip-begun"], "no connection is in both")

    def test_nothing_in_common(self):
        self.refused([*Talk(zero=("10.9.0.7", 1), one=("10.9.0.8", 2)).write(self.folder), *self.logs],
                     "no connection is in both")
        logs = self.write_logs([(7, AT, "socket(AF_UNIX, SOCK_STREAM, 0) = 3")], SERVER[:1])
        self.refused([*talk().write(self.folder), *logs], "no TCP call")

    def test_words(self):
        for words in (["--skew", "-1"], ["--skew", "x"], ["--version", "9"], ["--msl", "0"], ["--initial", "1"],
                      ["--nothing"], ["--capture", "0"], ["--congestion", "5681"], ["--congestion", "9438"],
                      ["--limit", "2"], ["--unit", "bytes"]):
            status, out, error = run(*words)
            self.assertEqual((status, out), (2, ""))
            self.assertNotIn("Traceback", error)
        self.assertEqual(run("--help")[0], 0)

    def test_words_of_the_recorder(self):
        for words in ([], ["--transfer", "-5"], ["--transfer", "5", "--lose", "x"], ["--transfer", "5", "--loss", "2"],
                      ["--pair", "", "--", "a"], ["--transfer", "5", "--", "a"], ["--serve", "--namespace", "--", "a"],
                      ["--transfer", "5", "--delay", "nan"], ["--pair", "'", "--", "a"],
                      ["--transfer", "5", "--congestion", "cubic"], ["--transfer", "5", "--limit", "2"]):
            status, out, error = run(*words, command=recording)
            self.assertEqual((status, out), (2, ""), words)
            self.assertNotIn("Traceback", error)
        self.assertEqual(run("--help", command=recording)[0], 0)

    def test_options_that_only_a_pair_has(self):
        for given in (["--loss", "0.1"], ["--delay", "2"], ["--kernel", "plain"], ["--lose", "3"], ["--double", "0"],
                      ["--reorder", "1"], ["--seed", "1"], ["--wait", "9"], ["--linger", "1"]):
            for form in (["--namespace"], ["--serve"], []):
                status, out, error = run(*form, *given, "--", "a", command=recording)
                self.assertEqual((status, out), (2, ""), given)
                self.assertIn(f"{given[0]} is for two hosts: give --pair or --transfer too", error)
        with mock.patch("os.geteuid", return_value=1000):
            self.refused(["--transfer", "5", "--loss", "0.1", "--kernel", "shipped", "--chunk", "2", "--echo"],
                         "need root", recording)
            self.refused(["--interface", "lo", "--", "a"], "need root", recording)

    def test_options_that_other_forms_have(self):
        for given in (["--chunk", "5"], ["--echo"]):
            for form in (["--pair", "b"], ["--namespace"], []):
                self.assertIn(f"{given[0]} is for --transfer\n", run(*form, *given, "--", "a", command=recording)[2])
        for form in (["--transfer", "5"], ["--pair", "b", "--", "a"], ["--namespace", "--", "a"]):
            self.assertIn("--interface is for a program whose peer is elsewhere\n",
                          run("--interface", "lo", *form, command=recording)[2])

    def test_git_ignores_the_folders_of_recordings(self):
        with open(os.path.join(os.path.dirname(TOP), ".gitignore"), encoding="ascii") as file:
            patterns = file.read().split()
        self.assertTrue(any(fnmatch.fnmatchcase(time.strftime(FOLDER) + "/", pattern) for pattern in patterns))

    def test_a_recorder_without_what_it_needs(self):
        with mock.patch("os.geteuid", return_value=1000):
            self.refused(["--transfer", "5"], "need root", recording)
        with mock.patch("os.geteuid", return_value=0):
            self.refused(["--lab", "/nowhere", "--transfer", "5"], "/nowhere: No such file or directory", recording)
            self.refused(["--as", "n\x1bo", "--transfer", "5"], r"--as n\x1bo: no such user", recording)
            self.refused(["--congestion", "none", "--version", "2", "--transfer", "5"],
                         "format version 2 has no line congestion", recording)
            self.refused(["--slack", "any", "--version", "4", "--transfer", "5"],
                         "format version 4 has no line slack", recording)
            self.refused(["--version", "3", "--transfer", "5"], "format version 3 is for one recorded host", recording)

    def test_all_that_is_missing_is_named_at_once(self):
        install = "install them: apt-get install strace tcpdump iproute2 gzip"
        with mock.patch("os.geteuid", return_value=0), mock.patch.dict(os.environ, {"PATH": self.folder}):
            self.refused(["--no-check", "--transfer", "5"],
                         "not installed: strace, tcpdump, ip, gzip\n  " + install + "\n", recording)
            self.refused(["--no-check", "--pair", "a b", "--", "c", "d"],
                         "gzip, a, c\n  " + install + "; install a, c, or name", recording)
            self.refused(["--no-check", "--", "c", "d"], "not installed: strace, tcpdump, gzip, c\n", recording)
            with mock.patch("tcpwit_importer.commands.lab.TOP", self.folder), mock.patch.dict(os.environ):
                os.environ.pop("TCPWIT_LAB", None)
                cause = "not installed: strace, tcpdump, gzip, c; tcpwit_lab is not in PATH, and not built in this " \
                    "repository\n"
                self.refused(["--", "c"], cause, recording)
                self.refused(["--", "c"],
                             "or name the program as you would in a shell; install the package tcpwit, which contains "
                             "tcpwit and tcpwit_lab",
                             recording)
        self.assertEqual([name for name in os.listdir(self.folder) if name.startswith("tcpwit-")], [])

    def test_programs_that_cannot_be_run(self):
        os.mkdir(f"{self.folder}/folder")
        names = [f"{self.folder}/{name}" for name in ("folder", "s0.log", "none\x1b[2J")]
        causes = [f"{names[0]}: Is a directory", f"{names[1]}: Permission denied",
                  rf"{self.folder}/none\x1b[2J: No such file or directory"]
        with mock.patch("os.geteuid", return_value=0), \
                mock.patch("tcpwit_importer.commands.tcpwit_record.PACKAGES", {}):
            for name, cause in zip(names, causes):
                self.refused(["--no-check", "--", name], f"tcpwit-record: {cause}\n", recording)
            self.refused(["--no-check", "--pair", names[0], "--", names[1]],
                         f"tcpwit-record: {causes[0]}; {causes[1]}\n", recording)

    def test_what_is_quoted_is_escaped(self):
        bad, shown = "\x1b[2J\x9b\udcff", r"\x1b[2J\x9b\xff"
        self.refused(["--capture", "0", f"/no{bad}", *self.logs[:3]], f"/no{shown}: No such file")
        self.refused([*self.captures[:3], "--calls", "0", f"/no{bad}"], f"/no{shown}: No such file")
        self.refused([*self.captures, *self.logs, "--out", f"/no{bad}/x", "--no-check"], f"/no{shown}/x: No such file")
        self.refused([*self.captures, *self.logs, "--zero", bad], f"{shown} isn't an address")
        other = talk()
        for host in (0, 1):
            other.frames[host] += Talk(zero=("10.9.0.1", 5000), one=("10.9.0.9", 22), at=AT).frames[host]
        words = [*other.write(self.folder), *self.logs]
        os.rename(words[2], f"{self.folder}/c{bad}")
        words[2] = f"{self.folder}/c{bad}"
        error = run(*words)[2]
        self.assertIn(f"/c{shown}, packet", error)
        for command in (importing, recording):
            error += run(f"--{bad}", "--transfer", bad, "--skew", bad, command=command)[2]
        self.assertFalse([letter for letter in error if letter != "\n" and not letter.isprintable()], error)

    def test_names_that_are_empty(self):
        for option in ("--out", "--lab"):
            self.assertIn("the name is empty", run(*self.captures, *self.logs, option, "")[2])
            self.assertIn("the name is empty", run("--transfer", "5", option, "", command=recording)[2])

    def test_a_call_that_cannot_be_read(self):
        damaged = [(process, moment, text.replace(ONE[0], "10.9\x1b")) for process, moment, text in CLIENT]
        self.refused([*self.captures, *self.write_logs(damaged, SERVER)],
                     r"s0.log, line 2: the arguments of connect can't be read ('10.9\x1b' does not")

    def test_the_programs_themselves(self):
        done = subprocess.run([os.path.join(TOP, "tcpwit-import")], capture_output=True, text=True, timeout=100,
                              check=False)
        self.assertEqual((done.returncode, done.stdout), (2, ""))
        self.assertIn("no capture is given", done.stderr)

    def test_outputs_that_take_nothing(self):
        words = [os.path.join(TOP, "tcpwit-import"), "--quiet", *self.captures, *self.logs]
        for output, cause in ((">&-", "standard output is closed"),
                              ("> /dev/full", "standard output: No space left on device")):
            done = subprocess.run(["sh", "-c", f'exec "$@" {output}', "sh", *words], stderr=subprocess.PIPE, text=True,
                                  timeout=100, check=False)
            self.assertEqual(done.returncode, 2, output)
            self.assertRegex(done.stderr, rf"^tcpwit-import: {cause}\n  .+\n$")
        # The reader of the pipe is gone: nothing must be printed.
        reader, writer = os.pipe()
        os.close(reader)
        with os.fdopen(writer, "wb") as pipe:
            done = subprocess.run(words, stdout=pipe, stderr=subprocess.PIPE, text=True, timeout=100, check=False)
        self.assertEqual((done.returncode, done.stderr), (2, ""))


if __name__ == "__main__":
    unittest.main()
