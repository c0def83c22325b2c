"""Tests what standard error shows of work that takes long."""
import contextlib
import io
import threading
import time
import unittest
from unittest import mock

from tcpwit_importer import progress
from tcpwit_importer.progress import Part


class Terminal(io.StringIO):
    def isatty(self):
        return True


@mock.patch.object(progress, "PATIENCE", 0.02)
@mock.patch.object(progress, "PACE", 0.01)
@mock.patch.object(Part, "command", "tcpwit-record")
class Parts(unittest.TestCase):
    def shown(self, output, *words, seconds=0.2, least=0, **options):
        """What a part of this length prints. If it has printed fewer states then, it goes on, for half a minute at
        most."""
        with contextlib.redirect_stderr(output), Part(*words, **options):
            time.sleep(seconds)
            latest = time.monotonic() + 30
            while output.getvalue().count("\r\033[K") < least and time.monotonic() < latest:
                time.sleep(0.01)
        return output.getvalue()

    def test_a_part_that_takes_long_is_printed_once(self):
        self.assertEqual(self.shown(io.StringIO(), "judging a\x1b.trace"), "tcpwit-record: judging a\\x1b.trace\n")

    def test_a_terminal_shows_the_time_or_the_share(self):
        lines = self.shown(Terminal(), "judging run.trace", least=1).split("\r\033[K")
        self.assertEqual((lines[0], lines[1], lines[-1]), ("", "tcpwit-record: judging run.trace: 0 s", ""))
        done = iter(range(0, 1000, 10))
        lines = self.shown(Terminal(), "reading host0.log", 80, lambda: next(done), least=10).split("\r\033[K")
        self.assertEqual(lines[1:3],
                         ["tcpwit-record: reading host0.log: 0 %", "tcpwit-record: reading host0.log: 12 %"])
        self.assertEqual(lines[10], "tcpwit-record: reading host0.log: 100 %")

    def test_what_is_counted(self):
        for count, counted in ((1031, "1,031 connections"), (1, "1 connection")):
            words = ("judging", count, lambda: count * 4 // 10, False, "connection")
            lines = self.shown(Terminal(), *words, least=1).split("\r\033[K")
            self.assertEqual(lines[1], f"tcpwit-record: judging: {count * 4 // 10} of {counted}")
            self.assertEqual(self.shown(io.StringIO(), *words), f"tcpwit-record: judging {counted}\n")

    def test_a_line_fits_into_the_terminal(self):
        with mock.patch.object(progress, "width_of", return_value=30):
            self.assertIn("\r\033[Ktcpwit-record: judging aaaaaa\r", self.shown(Terminal(), "judging " + "a" * 99))

    def test_programs_that_print_at_the_same_time(self):
        self.assertEqual(self.shown(Terminal(), "recording", beside_programs=True), "tcpwit-record: recording\n")

    def test_short_parts_and_quiet_commands_print_nothing(self):
        with mock.patch.object(progress, "PATIENCE", 9):
            self.assertEqual(self.shown(io.StringIO(), "judging", seconds=0), "")
        with mock.patch.object(Part, "command", None):
            self.assertEqual(self.shown(io.StringIO(), "judging"), "")
        self.assertEqual([thread.name for thread in threading.enumerate() if "show" in thread.name], [])


if __name__ == "__main__":
    unittest.main()
