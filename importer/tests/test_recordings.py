"""Tests recordings of unmodified programs: data/recordings.tar.xz has captures and logs, expected.txt the results.

A line of expected.txt has the name, the number of lines of the trace, and the strictest level with a yes: full,
recovery or none. The level is compared if TCPWIT_LAB names the program that judges; it is also compared with that of
each connection without its calls.
"""
import json
import os
import re
import subprocess
import tarfile
import tempfile
import unittest

from tcpwit_importer.commands.tcpwit_judge import main as judge
from tcpwit_importer.trace.header import LEVELS

from .test_command import run

DATA = os.path.join(os.path.dirname(os.path.realpath(__file__)), "data")


def files_of(folder):
    """The importer's arguments for a recording."""
    names = set(os.listdir(folder))
    if "host0.pcap" in names:
        return [word for host in "01" for option, kind in (("--capture", "pcap"), ("--calls", "log"))
                for word in (option, host, f"{folder}/host{host}.{kind}")]
    host = "0" if os.path.basename(folder).startswith("half") else "both"
    return ["--capture", host, f"{folder}/run.pcap", "--calls", host, f"{folder}/run.log"]


class Recordings(unittest.TestCase):
    @classmethod
    def setUpClass(cls):
        cls.folder = tempfile.TemporaryDirectory()
        cls.addClassCleanup(cls.folder.cleanup)
        with tarfile.open(os.path.join(DATA, "recordings.tar.xz")) as archive:
            archive.extractall(cls.folder.name)
        with open(os.path.join(DATA, "expected.txt"), encoding="ascii") as file:
            cls.expected = [line.split() for line in file]

    def test_all_are_expected(self):
        self.assertEqual(sorted(os.listdir(self.folder.name)), sorted(name for name, _, _ in self.expected))

    def test_traces(self):
        for name, lines, _ in self.expected:
            with self.subTest(name):
                status, out, error = run(*files_of(os.path.join(self.folder.name, name)))
                self.assertEqual(status, 0, error)
                self.assertEqual(out.count("\n"), int(lines))
                self.assertNotIn("doesn't show as sent", error)
                self.is_sound(out)

    @unittest.skipUnless(os.environ.get("TCPWIT_LAB"), "TCPWIT_LAB names no program")
    def test_verdicts(self):
        for name, _, level in self.expected:
            for options in ([], ["--congestion", level]):
                with self.subTest(name, options=options):
                    status, out, error = run(*files_of(os.path.join(self.folder.name, name)), *options, "--out",
                                             f"{self.folder.name}/{name}.trace")
                    rows = [line.split() for line in out.splitlines()]
                    strictest = next((row[0] for row in rows if row[1:2] == ["yes"]), "-")
                    # A better witness may be found, for a stricter level.
                    self.assertIn(strictest, LEVELS[:LEVELS.index(level) + 1], out + error)
                    self.assertEqual(status, 0 if options or strictest == "full" else 1)

    @unittest.skipUnless(os.environ.get("TCPWIT_LAB"), "TCPWIT_LAB names no program")
    def test_what_blocks_show_to_be_lost(self):
        # It was sent again. Version 5 doesn't read SACK blocks.
        files, trace = files_of(os.path.join(self.folder.name, "offload-60kB")), f"{self.folder.name}/blocks.trace"
        for options, levels, versions in (([], ["full", "recovery"], "56"),
                                          (["--congestion", "none", "--from", "full"], ["full", "recovery"], "66"),
                                          (["--congestion", "recovery"], ["recovery"], "66"),
                                          (["--version", "5"], ["full", "recovery", "none"], "55"),
                                          (["--version", "5", "--congestion", "none"], ["none"], "55")):
            with self.subTest(options):
                _, out, error = run(*files, *options, "--out", trace)
                rows = [line.split()[:2] for line in out.splitlines()[:len(levels)]]
                self.assertEqual(rows, [[level, "no"] for level in levels[:-1]] + [[levels[-1], "yes"]], error)
                self.assertEqual(out.count("Under full: line "), len(levels) > 1)
                for name, version in zip((trace, trace.replace(".trace", ".case")), versions):
                    with open(name, encoding="ascii") as file:
                        self.assertEqual(file.readline(), f"trace {version}\n")

    @unittest.skipUnless(os.environ.get("TCPWIT_LAB"), "TCPWIT_LAB names no program")
    def test_version_6(self):
        for name in ("abort", "half-curl", "redis-cli"):
            with self.subTest(name):
                trace = f"{self.folder.name}/{name}-6.trace"
                status, out, error = run(*files_of(os.path.join(self.folder.name, name)), "--version", "6", "--out",
                                         trace)
                self.assertEqual((status, out[:14]), (0, "recovery  yes "), error)
                with open(trace.replace(".trace", ".case"), encoding="ascii") as case:
                    self.assertEqual(case.readline(), "trace 6\n")
                    case.seek(0)
                    explained = subprocess.run([os.environ["TCPWIT_LAB"], "explain"], stdin=case, capture_output=True,
                                               text=True, check=False)
                self.assertEqual(explained.stdout.splitlines()[0], out.splitlines()[0].replace("recovery  ", ""))

    @unittest.skipUnless(os.environ.get("TCPWIT_LAB"), "TCPWIT_LAB names no program")
    def test_verdicts_without_the_logs(self):
        for name, _, level in self.expected:
            folder = os.path.join(self.folder.name, name)
            files = sorted(f"{folder}/{file}" for file in os.listdir(folder) if file.endswith(".pcap"))
            with self.subTest(name):
                _, out, error = run(*files, *(["--host", "client"] if name.startswith("half") else []), "--json",
                                    command=judge)
                found = [json.loads(line) for line in out.splitlines()]
                self.assertTrue(found, error)
                for connection in found:
                    self.assertEqual(connection.get("answer"), "yes", out + error)
                    self.assertIn(connection["level"], LEVELS[:LEVELS.index(level) + 1], out)

    def is_sound(self, text):
        """Checks that moments don't fall, a thread's calls alternate with their ends, numbers are assigned once, and
        received segments were sent before."""
        half = "hosts 1" in text
        moment, open_calls, given, out = 0, set(), set(), {"0": set(), "1": set()}
        for line in text.splitlines()[10:]:
            found = re.match(r"(\d+) (\d+) ([BEOI]) (.*)", line)
            self.assertGreaterEqual(int(found[1]), moment)
            moment = int(found[1])
            if found[3] in "BE":
                self.assertEqual(found[2] in open_calls, found[3] == "E")
                (open_calls.add if found[3] == "B" else open_calls.remove)(found[2])
                began = began_with if found[3] == "E" and (began_with := self.calls.get(found[2])) else None
                self.calls[found[2]] = found[4].split()[0]
                if began in ("listen", "open", "accept") and (number := re.match(r"ok (\d+)", found[4])):
                    self.assertNotIn(number[1], given)
                    given.add(number[1])
            else:
                host, segment = found[4].split()
                if found[3] == "O":
                    out[host].add(segment)
                elif not half:
                    self.assertIn(segment, out["1" if host == "0" else "0"])

    def setUp(self):
        self.calls = {}


if __name__ == "__main__":
    unittest.main()
