#!/usr/bin/python3
"""Tests the ways of a host in `tcpwit_lab find` and `judge`: recordings of a correct stack that counts bytes and
measures one round trip at a time, and that shows its expiries; the options `--ways` and `--expiries`."""
import glob
import gzip
import os
import random
import shlex
import subprocess
import sys
import unittest

TOP = os.path.dirname(os.path.dirname(os.path.abspath(__file__)))
TCPWIT = shlex.split(os.environ.get("TCPWIT", f"{TOP}/tcpwit"))
LAB = shlex.split(os.environ.get("TCPWIT_LAB", f"{TOP}/tcpwit_lab"))
# The way that each recording in `ways` needs.
BYTES = "counts acknowledged bytes in congestion avoidance (RFC 5681, 3.1)"
ONE_SAMPLE = "measures one round trip at a time (RFC 6298, 3)"
WAYS = {
    "data-cut-for-20-s-d13": ("0:bytes", BYTES),
    "data-lost-all-acks-d13": ("0:bytes", BYTES),
    "data-lost-first": ("0:bytes", BYTES),
    "data-lost-first-d13": ("0:bytes", BYTES),
    "data-lost-first-d7": ("0:bytes", BYTES),
    "own-loss-116": ("0:bytes", BYTES),
    "window-closed-long-d7": ("1:one-sample", ONE_SAMPLE),
    "window-probes-lost-d7": ("1:one-sample", ONE_SAMPLE),
    "window-update-lost-d7": ("1:bytes", BYTES),
}
ALL_SHOWN = ("--expiries", "0,1")
# How many changed traces are tried.
CHANGED = int(os.environ.get("CHANGED_TRACES", "60"))


def recorded(name):
    """A recording."""
    with gzip.open(f"{TOP}/tools/ways/{name}.trace.gz", "rt", encoding="ascii") as file:
        return file.read()


def run(words, text):
    """A program that reads a text and ends with status 0 or 1."""
    ran = subprocess.run(words, input=text, capture_output=True, text=True, timeout=120)
    assert ran.returncode in (0, 1), (words, ran.returncode, ran.stderr)
    return ran


def find(trace, *words):
    """The case that is found, and standard error."""
    ran = run([*LAB, "find", *words], trace)
    return ran.stdout, ran.stderr


def check(case):
    """The verdict on a case."""
    return run([*TCPWIT, "check"], case).stdout


def events_of(text):
    """The event lines of a trace."""
    return [line for line in text.splitlines() if line[0].isdigit()]


class Ways(unittest.TestCase):
    def test_each_recording_is_there(self):
        names = {os.path.basename(path)[:-len(".trace.gz")] for path in glob.glob(f"{TOP}/tools/ways/*.trace.gz")}
        self.assertEqual(names, {*WAYS, "answered-acks"})

    def test_the_way_of_a_whole_run(self):
        for name, (way, does) in WAYS.items():
            trace = recorded(name)
            case, said = find(trace, *ALL_SHOWN)
            self.assertRegex(check(case), f"^yes {len(events_of(trace))} [0-9]+\n$", name)
            self.assertEqual(said.splitlines()[1:], [f"host {way[0]} {does}: --ways {way}"], name)

    def test_a_way_that_is_given(self):
        """No other choice is needed then, and the case is the same."""
        for name, (way, does) in WAYS.items():
            trace = recorded(name)
            case, said = find(trace, *ALL_SHOWN, "--ways", way)
            self.assertEqual(said, f"host {way[0]} {does}: --ways {way}\n", name)
            self.assertEqual(case, find(trace, *ALL_SHOWN)[0], name)

    def test_a_way_of_the_other_host(self):
        """It doesn't help."""
        for name in ("data-lost-first", "window-closed-long-d7"):
            way = WAYS[name][0]
            other = f"{1 - int(way[0])}{way[1:]}"
            said = find(recorded(name), *ALL_SHOWN, "--ways", other)[1]
            self.assertIn(f"--ways {way}\n", said)

    def test_names(self):
        trace = recorded("data-lost-first")
        ways = "0:bytes,0:last-sample,0:newreno,1:newreno"
        said = find(trace, "--budget", "0", "--ways", ways)[1]
        for way in ways.split(","):
            self.assertIn(f"--ways {way}\n", said)

    def test_other_words(self):
        for words in ("", "bytes", "0:", "2:bytes", "0:bytes,", "0:reno", "0:bytes;1:bytes"):
            ran = subprocess.run([*LAB, "find", f"--ways={words}"], input="", capture_output=True, text=True)
            self.assertEqual((ran.returncode, ran.stdout), (3, "bad usage\n"), words)
        for words in ("", "2", "1,0", "0,1,", "all"):
            ran = subprocess.run([*LAB, "find", f"--expiries={words}"], input="", capture_output=True, text=True)
            self.assertEqual((ran.returncode, ran.stdout), (3, "bad usage\n"), words)


class Expiries(unittest.TestCase):
    def test_no_line_is_added(self):
        """Without the option, one is added that the stack never reported, and a run is a no that is a yes."""
        trace = recorded("answered-acks")
        count = len(events_of(trace))
        case, said = find(trace, *ALL_SHOWN)
        self.assertEqual((said, events_of(case.split("witness")[0])), ("", events_of(trace)))
        self.assertRegex(check(case), f"^yes {count} [0-9]+\n$")
        self.assertGreater(len(events_of(find(trace)[0].split("witness")[0])), count)

    def test_of_one_host(self):
        """A timer of the other host may expire."""
        trace = recorded("data-cut-for-20-s-d13")
        shown = [line for line in trace.splitlines() if line.split()[2:3] != ["T"]]
        without = "".join(f"{line}\n" for line in shown)
        for hosts, is_added in (("0", False), ("1", True), ("0,1", False)):
            case = find(without, "--expiries", hosts, "--budget", "0")[0].split("witness")[0]
            added = {line.split()[3] for line in events_of(case) if line.split()[2] == "T"}
            self.assertEqual("0" in added, is_added, hosts)
            self.assertEqual(added & set(hosts.split(",")), set())


class Changed(unittest.TestCase):
    """Traces with some lines changed: the search ends, and `check` says yes exactly if it explained every line."""

    def changed(self, lines, draws):
        """Some event lines twice, in another order, without some, with other moments or with other numbers."""
        lines = list(lines)
        for _ in range(draws.choice((1, 1, 2, 5))):
            at = draws.randrange(len(lines))
            words = lines[at].split(" ")
            change = draws.randrange(5)
            if change == 0:
                lines.insert(at, lines[at])
            elif change == 1 and len(lines) > 1:
                del lines[at]
            elif change == 2 and at > 0:
                later, words[0] = lines[at - 1].split(" "), lines[at - 1].split(" ")[0]
                lines[at - 1], lines[at] = " ".join(words), " ".join(later)
            elif change == 3:
                last = int(lines[at + 1].split(" ")[0]) if at + 1 < len(lines) else int(words[0]) + 10_000
                words[0] = str(draws.randint(int(words[0]), last))
                lines[at] = " ".join(words)
            elif words[2] in "OI":
                place = draws.randrange(8, 32)
                words[4] = words[4][:place] + draws.choice("0123456789abcdef") + words[4][place + 1:]
                lines[at] = " ".join(words)
        return lines

    def test_changed_traces(self):
        draws = random.Random(94)
        names = sorted(WAYS)
        answers = set()
        for _ in range(CHANGED):
            trace = recorded(draws.choice(names))
            head = [line for line in trace.splitlines() if not line[0].isdigit()]
            lines = self.changed(events_of(trace)[:draws.choice((40, 100, 1000))], draws)
            text = "".join(f"{line}\n" for line in head + lines)
            ran = subprocess.run([*LAB, "find", "--budget", "20000"], input=text, capture_output=True, text=True,
                                 timeout=120)
            if ran.returncode == 2:
                self.assertRegex(ran.stdout + ran.stderr, "bad trace|find")
                continue
            self.assertEqual(ran.returncode, 0, ran.stderr)
            explained = not any(word in ran.stderr for word in ("isn't explained", "no choice", "is late"))
            self.assertEqual(check(ran.stdout).startswith("yes"), explained, text)
            answers.add(explained)
        self.assertEqual(answers, {False, True})


if __name__ == "__main__":
    unittest.main()
