"""Tests what the recorder knows about the programs that it runs."""
import contextlib
import os
import tempfile
import unittest
from unittest import mock

from tcpwit_importer.problem import Problem
from tcpwit_importer.recording import programs, recorder
from tcpwit_importer.recording.namespaces import Namespace

HEAD = "  sl  local_address rem_address   st tx_queue rx_queue tr tm->when retrnsmt   uid  timeout inode\n"
CONNECTED = "   0: 0209000A:0050 0109000A:0FA0 01 00000000:00000000 00:00000000 00000000     0        0 4711 1 " \
    "0000000000000000 20 4 30 10 -1\n"
LISTENER = "   1: 00000000:0050 00000000:0000 0A 00000000:00000000 00:00000000 00000000     0        0 4712 1 " \
    "0000000000000000 100 0 0 10 0\n"


class Running(unittest.TestCase):
    def server(self, tables, log):
        """A server that still runs, in a namespace with these tables of sockets."""
        server = programs.Traced.__new__(programs.Traced)
        server.words, server.log, server.process = ["server"], "host1.log", mock.Mock(**{"poll.return_value": None})
        server.namespace = mock.Mock(inside=contextlib.nullcontext)
        for patch in (mock.patch.object(server, "logged", return_value=log),
                      mock.patch.object(programs, "table_of_sockets", side_effect=tables.get)):
            patch.start()
            self.addCleanup(patch.stop)
        return server

    def test_only_a_tcp_listener_counts(self):
        self.assertEqual([programs.has_listener(table)
                          for table in ("", HEAD, HEAD + CONNECTED, HEAD + CONNECTED + LISTENER)],
                         [False, False, False, True])
        log = b"7 5.000000001 socket(AF_UNIX, SOCK_STREAM, 0) = 3\n7 5.000000002 listen(3, 5) = 0\n"
        for tables in ({"tcp": HEAD, "tcp6": ""}, {"tcp": HEAD + CONNECTED, "tcp6": HEAD}):
            with self.assertRaisesRegex(Problem, "server did not listen for TCP within 0 seconds"):
                self.server(tables, log).wait_for_listener(0)
        for tables in ({"tcp": HEAD + LISTENER, "tcp6": ""}, {"tcp": HEAD, "tcp6": HEAD + LISTENER}):
            self.server(tables, log).wait_for_listener(0)

    def test_a_program_that_the_system_refuses(self):
        refused = b'8 execve("\\x61", ["\\x61"], 0x7ffc /* 35 vars */) = -1 ENOEXEC (Exec format error)\n' \
            b"7  5.9 +++ exited with 1 +++\n"
        # A process has at least five columns, and a space after them.
        for log in (b"7     5." + refused, b"70000 5." + refused):
            with self.assertRaisesRegex(Problem, "^server: Exec format error\n"):
                self.server({}, log).refuse_failed_start()
        with self.assertRaisesRegex(Problem, "^host1.log: no call of server was logged\n"):
            self.server({}, b"").refuse_failed_start()
        self.server({}, b'7     5.8 execve("\\x61", ["\\x61"], 0x7ffc /* 35 vars */) = 0\n').refuse_failed_start()

    def test_daemons_of_the_namespace_are_ended_too(self):
        server = self.server({}, b"")
        server.process.pid = 5
        server.namespace.processes = lambda: [5, 6, 7, 8]
        # The recorder started strace (5), whose program is 6, and tcpdump (7). The parent of 8 has ended.
        with mock.patch.object(programs, "children", side_effect={os.getpid(): [5, 7], 5: [6], 6: []}.get):
            self.assertEqual(server.running(), {6, 8})
            server.namespace = None
            self.assertEqual(server.running(), {6})

    def test_strace_prints_addresses_if_it_can(self):
        for status, found in ((0, [*programs.STRACE, "--decode-fds=socket"]), (1, programs.STRACE)):
            programs.strace.cache_clear()
            with tempfile.TemporaryDirectory() as folder, mock.patch.dict(os.environ, {"PATH": folder}):
                with open(f"{folder}/strace", "w", encoding="ascii") as file:
                    file.write(f"#!/bin/sh\n[ \"$*\" = '--decode-fds=socket --version' ] && exit {status}\nexit 3\n")
                os.chmod(f"{folder}/strace", 0o755)
                self.assertEqual(programs.strace(), found)
        programs.strace.cache_clear()

    def test_the_calls_that_give_and_mark_descriptors_are_traced(self):
        self.assertLessEqual({"ioctl", "?pidfd_open", "?pidfd_getfd"}, set(programs.CALLS.split(",")))

    def test_reading_what_tcpdump_printed_moves_nothing(self):
        capture = programs.Capture.__new__(programs.Capture)
        with tempfile.TemporaryFile() as capture.errors:
            number = capture.errors.fileno()
            os.write(number, b"tcpdump: ")
            os.lseek(number, 4, os.SEEK_SET)
            self.assertEqual((capture.said(), os.lseek(number, 0, os.SEEK_CUR)), (b"tcpdump: ", 4))

    def test_a_capture_that_lost_packets(self):
        capture = programs.Capture.__new__(programs.Capture)
        capture.file, capture.process = "host0.pcap", mock.Mock(**{"poll.return_value": None})
        for said, cause in ((b"9 packets captured\n0 packets dropped by kernel\n", None),
                            (b"1 packet dropped by kernel\n", "lost 1 packets"),
                            (b"0 packets dropped by kernel\n7 packets dropped by interface\n", None),
                            (b"70 packets dropped by kernel\n", "lost 70 packets")):
            with self.subTest(said), mock.patch.object(capture, "said", return_value=said):
                if cause:
                    with self.assertRaisesRegex(Problem,
                                                f"^host0.pcap: the capture {cause}\n  give the captures a larger "
                                                "buffer, such as --buffer 256"):
                        capture.stop()
                else:
                    capture.stop()

    def test_the_size_of_a_buffer(self):
        with mock.patch.object(programs, "started", return_value=mock.Mock(**{"poll.return_value": None})) as started, \
                mock.patch.object(programs.Capture, "said", return_value=b"listening on w0"):
            programs.Capture("w0", "host0.pcap", 256).errors.close()
        words = started.call_args[0][0]
        self.assertEqual(words[words.index("-B") + 1], "262144")

    def test_frames_stop_before_a_capture_ends(self):
        events = mock.Mock()
        options = mock.Mock(out=None, transfer=5, pair=None, chunk=5, echo=False, seconds=None, linger=0, wait=1)
        with tempfile.TemporaryDirectory() as options.out, mock.patch.multiple(
            recorder, joined_pair=mock.Mock(return_value=(mock.Mock(), [mock.MagicMock(), mock.MagicMock()])),
            Chances=mock.Mock(), Carrier=mock.Mock(return_value=events.carrier),
            Capture=mock.Mock(return_value=events.capture), Traced=mock.Mock(return_value=events.program)):
            events.carrier.fault = None
            recorder.Recording(options).pair()
        names = [call[0] for call in events.mock_calls]
        last_program = len(names) - names[::-1].index("program.stop")
        self.assertEqual(names.count("capture.stop"), 2)
        self.assertLess(last_program, names.index("capture.stop"))
        self.assertLess(names.index("carrier.stop"), names.index("capture.stop"))

    def test_the_processes_of_a_namespace(self):
        own = Namespace.__new__(Namespace)
        with open("/proc/self/ns/net", encoding="ascii") as file:
            own.file = file.fileno()
            self.assertIn(os.getpid(), own.processes())
        with open(os.devnull, encoding="ascii") as file:
            own.file = file.fileno()
            self.assertEqual(own.processes(), [])


if __name__ == "__main__":
    unittest.main()
