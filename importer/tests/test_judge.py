"""Tests the command tcpwit-judge. A script with chosen answers replaces tcpwit_lab, unless TCPWIT_LAB names the
program."""
import contextlib
import gzip
import io
import json
import os
import struct
import tempfile
import unittest
from ipaddress import ip_address
from unittest import mock

from tcpwit_importer.capture.segments import ACK, FIN, RST, SYN
from tcpwit_importer.commands.tcpwit_judge import main

from .wire import SECOND, Talk, ethernet, ip_packet, pcap, segment

# Answers `judge` by what the test chose, which may be another answer and status for a trace of version 6; saves the
# trace, and makes a case and a picture if requested. It doesn't judge many traces.
SCRIPT = """#!/bin/sh
[ "$*" = judge ] && exit 2
case "$*" in *--many) exit 3 ;; esac
echo "$@" >> {folder}/words
if [ "$1" = draw ]; then echo '<svg/>'; exit 0; fi
if [ "$1" = explain ]; then echo 'explained'; exit 1; fi
cat > {folder}/given
for word; do [ "$before" = --case ] && echo 'a case' > "$word"; before=$word; done
read -r first < {folder}/given
[ "$first" = "trace 6" ] && {{ cat {folder}/below; exit {below}; }}
cat {folder}/answer
exit {status}
"""
# Answers a trace, or many.
MANY = """#!/bin/sh
[ "$*" = judge ] && exit 2
echo "$@" >> {folder}/words
case "$*" in
  *--many) while read -r line; do
      echo "$line" >> {folder}/given
      if [ "$line" = end ]; then echo '{answer}'; fi
    done ;;
  *) cat > /dev/null; echo '{answer}' ;;
esac
"""
YES = {"levels": [{"level": "full", "answer": "yes", "lines": 57, "hidden": 88}],
       "said": ["full      yes 57 88", "The run follows RFC 9293."]}


def no(rule="ack-late", **input_line):
    """An answer whose last level is a no, by this rule and perhaps with the line of the trace that it refuses."""
    verdict = {"answer": "no", "witness_line": 7, "trace_line": 8, **input_line, "rule": rule}
    levels = [{"level": level, **verdict, "sentence": f"line 8: {level} is late."} for level in ("full", "none")]
    return {"levels": levels, "said": [f"{level:<10}no 7 8 {rule}" for level in ("full", "none")]
            + [f"Under {level}: line 8: {level} is late." for level in ("full", "none")]}


NO = no()


def below(answer):
    """What an answer says of the levels below `full`."""
    return {"levels": answer["levels"][1:], "said": [line for line in answer["said"] if "full" not in line]}


def laxer(**input_line):
    """An answer with a yes at `none`, after two noes; the second one may have the line of the trace that it refuses."""
    verdict = {"answer": "no", "witness_line": 7, "trace_line": 0}
    levels = [{"level": "full", **verdict, "rule": "congestion", "sentence": "line 5 sends 9 bytes (congestion)."},
              {"level": "recovery", **verdict, **input_line, "rule": "old-data",
               "sentence": "line 14 retransmits data (old-data)."},
              {"level": "none", **YES["levels"][0], "level": "none"}]
    return {"levels": levels, "said": ["none      yes 57 88", "Under recovery: line 14 retransmits data (old-data)."]}


INFERRED = "Calls were inferred: their answers aren't judged.\n" \
    "Nor is how soon a host sends what its program gave it (rule start-late).\n"


def run(*words):
    """Runs the command. Returns its status and both outputs."""
    out, error = io.StringIO(), io.StringIO()
    with contextlib.redirect_stdout(out), contextlib.redirect_stderr(error):
        try:
            status = main(list(words))
        except SystemExit as end:
            status = end.code
    return status, out.getvalue(), error.getvalue()


def reporting(blocks=True):
    """A connection in which the first of five segments is lost and, after a single acknowledgment, sent again. With
    blocks, that reports the others."""
    talk = Talk(options=b"\2\4\0\x64\4\2\1\1")
    talk.send(0, payload=b"a" * 100)
    talk.send(1)
    first, last = talk.next[0], talk.next[0] + 500
    for number in range(5):
        talk.send(0, payload=bytes([number]) * 100, lost=not number)
    talk.next[0] = first
    talk.send(1, options=struct.pack("!BBBBII", 1, 1, 5, 10, first + 100, last) if blocks else b"")
    talk.send(0, payload=bytes(100))
    talk.next[0] = last
    talk.send(1)
    talk.send(0, FIN | ACK)
    talk.send(1, FIN | ACK)
    talk.send(0)
    return talk


def cooked(frames, own):
    """The frames of a capture of all interfaces, which marks those of a host as sent."""
    return [(moment, struct.pack("!HHHQ", 4 if own in frame[26:30] else 0, 1, 6, 0) + frame[12:14] + frame[14:])
            for moment, frame in frames]


class WithCaptures(unittest.TestCase):
    def setUp(self):
        self.folder = self.enterContext(tempfile.TemporaryDirectory())
        self.talk = Talk()
        self.talk.send(0, payload=b"hello")
        self.talk.send(1, FIN | ACK)
        self.talk.send(0, FIN | ACK)
        self.talk.send(1)

    def lab(self, answer=YES, status=0, below=None):
        """Writes a program with this answer, an object or a line, and its status; perhaps with others for a trace of
        version 6. Returns the options that name it."""
        below = below or (answer, status)
        for name, given in (("answer", answer), ("below", below[0])):
            with open(f"{self.folder}/{name}", "w", encoding="ascii") as file:
                file.write(given if isinstance(given, str) else json.dumps(given))
        with open(f"{self.folder}/lab", "w", encoding="ascii") as file:
            file.write(SCRIPT.format(folder=self.folder, status=status, below=below[1]))
        os.chmod(f"{self.folder}/lab", 0o755)
        return ["--lab", f"{self.folder}/lab", "--jobs", "1"]

    def files(self, talk=None, hosts=(0, 1)):
        """Writes the captures of hosts. Returns their names."""
        names = [f"{self.folder}/c{host}.pcap" for host in hosts]
        for name, host in zip(names, hosts):
            pcap(name, (talk or self.talk).frames[host])
        return names

    def text(self, name):
        """The text of a file."""
        with open(f"{self.folder}/{name}", encoding="ascii") as file:
            return file.read()

    def forget(self):
        """Removes what the program was asked for."""
        with contextlib.suppress(FileNotFoundError):
            os.remove(f"{self.folder}/words")

    def fails(self, *words):
        """The message of a run that fails with status 2, without its second line."""
        status, out, error = run(*words)
        self.assertEqual((status, out), (2, ""), error)
        self.assertNotIn("this is a bug", error)
        return error.splitlines()[0]


class Lines(WithCaptures):
    def test_a_yes(self):
        status, out, error = run(*self.files(), *self.lab())
        self.assertEqual((status, error), (0, ""))
        self.assertEqual(out,
                         f"10.9.0.1:4000 -> 10.9.0.2:80   full      yes 57 88\n1 connection: 1 yes, 0 no. {INFERRED}")
        self.assertEqual(self.text("words"), "judge --json --least full\n")
        self.assertIn("hosts 2\n", self.text("given"))

    def test_a_no(self):
        status, out, _ = run(*self.files(), *self.lab(NO, 1))
        self.assertEqual(status, 1)
        self.assertEqual(out.splitlines()[0],
                         "10.9.0.1:4000 -> 10.9.0.2:80   none      no ack-late; before packet 1 of "
                         f"{self.folder}/c0.pcap (0.000000 s): none is late")
        self.assertIn("1 connection: 0 yes, 1 no. ", out)

    def test_the_packet_of_a_no(self):
        first = "packet 1 of FOLDER/c0.pcap (0.000000 s)"
        for line, place in ((13, first), (12, f"before {first}"), (10, f"before {first}"), (None, f"before {first}"),
                            (999, "after packet 7 of FOLDER/c0.pcap (0.013000 s), the last one")):
            # Version 6 has two more lines in its header.
            for words, number in ((["--version", "5"], line), ([], line and line + 2)):
                answer = self.lab(no(**{} if number is None else {"input_line": number}), 1)
                _, out, _ = run(*self.files(), *answer, *words)
                self.assertEqual(out.splitlines()[0].replace(self.folder, "FOLDER").split("ack-late")[1],
                                 f"; {place}: none is late")
        for words in ([], ["--report", f"{self.folder}/kept"]):
            _, out, _ = run(*self.files(), *self.lab(no(input_line=13), 1), "--version", "5", "--json", *words)
            self.assertEqual((os.path.basename(json.loads(out)["capture"]), json.loads(out)["packet"]), ("c0.pcap", 1))

    def test_what_a_stricter_level_refused(self):
        begin = "10.9.0.1:4000 -> 10.9.0.2:80   none      yes 57 88; recovery: "
        for given, words, place in (({}, self.files(), "packet 2 of FOLDER/c1.pcap (0.001000 s)"),
                                    ({"input_line": 13}, self.files(), "packet 1 of FOLDER/c0.pcap (0.000000 s)"),
                                    ({"input_line": 13}, [*self.files(hosts=(0,)), "--host", "client"],
                                     "packet 1 (0.000000 s)")):
            status, out, _ = run(*words, *self.lab(laxer(**given)))
            self.assertEqual((status, out.splitlines()[0].replace(self.folder, "FOLDER")),
                             (0, f"{begin}{place} retransmits data (old-data)"))

    def test_the_levels_in_json_and_in_a_report(self):
        report = f"{self.folder}/kept"
        answer = laxer(input_line=13)
        _, out, _ = run(*self.files(), *self.lab(answer), "--report", report, "--json")
        found, capture = json.loads(out), f"{self.folder}/c0.pcap"
        full, recovery, none = answer["levels"]
        first = f"packet 1 of {capture} (0.000000 s)"
        place = {"capture": capture, "packet": 1, "time": 0.0}
        self.assertEqual(found["levels"], [full | place | {"sentence": f"{first} sends 9 bytes (congestion)."},
                                           recovery | place | {"sentence": f"{first} retransmits data (old-data)."},
                                           none])
        self.assertEqual((found["level"], found["answer"], found["lines"], found["steps"]), ("none", "yes", 57, 88))
        self.assertFalse({"capture", "packet"} & found.keys())
        self.assertEqual(self.text(os.path.relpath(found["files"][3], self.folder)).splitlines(),
                         [*answer["said"], f"Under recovery: {first} retransmits data (old-data).", "", "explained"])

    def test_options_of_judge(self):
        run(*self.files(), *self.lab(), "--level", "none", "--slack", "any", "--budget", "7")
        self.assertIn("judge --json --least none --slack any --budget 7\n", self.text("words"))
        self.assertIn("\nslack any\n", self.text("given"))
        run(*self.files(), *self.lab(), "--level", "none", "--from", "recovery")
        self.assertIn("judge --json --least none --from recovery\n", self.text("words"))
        run(*self.files(), *self.lab(), "--minrto", "1000000", "--initial", "5681", "--grain", "1", "--msl", "2")
        self.assertIn("\nmsl 2\ngrain 1\nminrto 1000000\nextra 65535\ninitial 5681\n", self.text("given"))

    def test_version_6(self):
        status, out, _ = run(*self.files(), *self.lab(), "--version", "6", "--slack", "5", "--initial", "5681")
        self.assertEqual((status, self.text("words")), (0, "judge --json --least recovery --slack 5\n"), out)
        self.assertEqual(self.text("given").splitlines()[:12],
                         ["trace 6", "skew 0", "msl 60000000", "grain 4000", "minrto 200000", "extra 65535",
                          "initial 5681", "hosts 2", "congestion recovery", "slack 5", "sender cubic", "growth any"])
        run(*self.files(hosts=(0,)), *self.lab(), "--version", "6", "--between", "--level", "none", "--from",
            "recovery")
        self.assertIn("judge --json --least none --from recovery --slack any\n", self.text("words"))
        self.assertEqual(self.text("given").splitlines()[8:10], ["congestion recovery", "slack any"])
        run(*self.files(), *self.lab(), "--version", "5")
        self.assertEqual(self.text("given")[:8], "trace 5\n")

    def test_levels_below_full_have_version_6(self):
        yes, recovery = YES["levels"][0], laxer()["levels"][1]
        answer = NO, 1, ({"levels": [recovery, yes | {"level": "none"}], "said": ["none      yes 57 88"]}, 0)
        for words, runs, status in (([], ["full", "recovery"], 1), (["--level", "recovery"], ["recovery"], 0),
                                    (["--level", "recovery", "--from", "full"], ["full", "recovery"], 0),
                                    (["--level", "none", "--from", "full"], ["full", "none --from recovery"], 0),
                                    (["--level", "none", "--from", "recovery"], ["none --from recovery"], 0),
                                    (["--level", "none"], ["none"], 0)):
            with self.subTest(words):
                self.forget()
                found, out, error = run(*self.files(), *self.lab(*answer), "--json", *words)
                self.assertEqual((found, error), (status, ""))
                self.assertEqual(self.text("words"), "".join(f"judge --json --least {run}\n" for run in runs))
                self.assertEqual(self.text("given").splitlines()[:12:8], ["trace 6", "congestion recovery"])
                facts, both = json.loads(out), len(runs) == 2
                self.assertEqual((facts["status"], facts["level"], facts["lines"]), (status, "none", 57))
                self.assertEqual([level["level"] for level in facts["levels"]], ["full"] * both + ["recovery", "none"])
                refused = f"Under full: before packet 1 of {self.folder}/c0.pcap (0.000000 s): full is late."
                self.assertEqual(facts["said"], [*NO["said"][:both], "none      yes 57 88", *[refused] * both])
        # The line is about the laxest level that refused something, in its own version.
        _, out, _ = run(*self.files(), *self.lab(*answer))
        self.assertIn("   none      yes 57 88; recovery: packet 1 of ", out)
        # A yes at `full` needs no other version, and a chosen version has all levels.
        for words, given in (([], "trace 5\n"), (["--version", "5"], "trace 5\n"), (["--version", "6"], "trace 6\n")):
            self.forget()
            self.assertEqual(run(*self.files(), *self.lab(YES, 0, (YES, 0)), *words)[0], 0)
            self.assertEqual((self.text("given")[:8], self.text("words").count("judge")), (given, 1))
        self.forget()
        run(*self.files(), *self.lab(NO, 1), "--version", "5", "--level", "none", "--from", "full")
        self.assertEqual(self.text("words"), "judge --json --least none --from full\n")

    def test_a_report_has_the_case_of_the_last_version(self):
        report = f"{self.folder}/kept"
        _, out, _ = run(*self.files(), *self.lab(NO, 1, (below(laxer(input_line=15)), 0)), "--report", report, "--json")
        trace, _, _, text = (os.path.relpath(name, self.folder) for name in json.loads(out)["files"])
        self.assertEqual(self.text(trace)[:8], "trace 6\n")
        self.assertEqual(self.text(trace), self.text("given"))
        self.assertEqual(self.text("words").splitlines()[2:], ["draw", "explain"])
        said = f"Under recovery: packet 1 of {self.folder}/c0.pcap (0.000000 s) retransmits data (old-data).\n"
        self.assertIn(said, self.text(text))
        for level, packet in (("full", "before packet"), ("recovery", "packet")):
            self.assertIn(f"{level}</th><td>no</td><td>{packet} 1 of ", self.text("kept/index.html"))

    def test_connections_in_their_order(self):
        second = Talk(zero=("10.9.0.1", 4001), at=99 * 10**9)
        for host in (0, 1):
            second.frames[host] += self.talk.frames[host]
        status, out, _ = run(*self.files(second), *self.lab()[:2], "--jobs", "3")
        self.assertEqual(status, 0)
        self.assertEqual([line.split()[0] for line in out.splitlines()[:2]], ["10.9.0.1:4001", "10.9.0.1:4000"])
        self.assertIn("2 connections: 2 yes, 0 no. ", out)

    def test_a_syn_during_a_connection(self):
        stray = segment(("10.9.0.1", 4000), ("10.9.0.2", 80), 77, 0, SYN)
        for host in (0, 1):
            frames = self.talk.frames[host]
            frames.insert(4, (frames[3][0] + 1000, ethernet(ip_packet(("10.9.0.1", 4000), ("10.9.0.2", 80), stray))))
        _, out, _ = run(*self.files(), *self.lab())
        self.assertIn("1 connection: 1 yes", out)
        self.assertEqual(sum(stray.hex()[:30] in line for line in self.text("given").splitlines()), 2)

    def test_a_port_that_connects_to_itself(self):
        self.talk = Talk(zero=("10.9.0.1", 80), one=("10.9.0.1", 80))
        _, out, _ = run(*self.files(hosts=(0,)), *self.lab())
        self.assertIn("not judged: it connects a port with itself", out)

    def test_ports_used_again(self):
        again = Talk(at=200 * 10**9)
        again.next = {0: 900000, 1: 50}
        again.frames = {0: [], 1: []}
        again.syn(b"")
        for host in (0, 1):
            self.talk.frames[host] += again.frames[host]
        _, out, _ = run(*self.files(), *self.lab())
        self.assertEqual([line.split()[0] for line in out.splitlines()[:2]], ["10.9.0.1:4000"] * 2)

    def test_a_lost_packet(self):
        del self.talk.frames[0][3]
        status, out, _ = run(*self.files(), *self.lab())
        self.assertEqual(status, 2)
        self.assertIn("not judged: ", out.splitlines()[0])
        self.assertIn("c0.pcap: the capture lost packets of 10.9.0.1:4000 -> 10.9.0.2:80: byte 1 ", out.splitlines()[0])
        self.assertEqual(run(*self.files(), *self.lab(), "--keep-gaps")[0], 0)

    def test_bytes_that_were_never_sent(self):
        self.talk = Talk()
        self.talk.next[0] += 1000
        self.talk.send(1)
        said = ("c0.pcap: 10.9.0.2:80 acknowledged byte 1 of 10.9.0.1:4000, which no capture has: it was never sent, "
                "or {} lost packets (--keep-gaps judges it as it is)")
        for words, lost in ((self.files(), "both captures"),
                            ([*self.files(hosts=(0,)), "--host", "client"], "the capture")):
            self.assertIn(said.format(lost), run(*words, *self.lab())[1])
            self.assertEqual(run(*words, *self.lab(), "--keep-gaps")[0], 0)

    def test_an_answer_of_an_earlier_connection(self):
        self.talk = Talk()
        frames = self.talk.frames[0]
        frames.insert(1,
                      (frames[0][0] + 1000,
                       ethernet(ip_packet(("10.9.0.2", 80), ("10.9.0.1", 4000),
                                          segment(("10.9.0.2", 80), ("10.9.0.1", 4000), 1, 99999, ACK)))))
        self.assertEqual(run(*self.files(hosts=(0,)), *self.lab(), "--host", "client")[0], 0)

    def test_json(self):
        _, out, _ = run(*self.files(), *self.lab(NO, 1, (below(NO), 1)), "--json")
        first = {"capture": f"{self.folder}/c0.pcap", "packet": 1, "time": 0.0}
        said = f"before packet 1 of {self.folder}/c0.pcap (0.000000 s): {{}} is late."
        levels = [level | first | {"sentence": said.format(level["level"])} for level in NO["levels"]]
        found = json.loads(out)
        self.assertEqual(found.pop("figures").keys(), {"client", "server"})
        self.assertEqual(found, first | {
            "client": "10.9.0.1:4000", "server": "10.9.0.2:80", "begun": 100.0, "segments": 14, "judged": True,
            "hosts": 2, "level": "none", "answer": "no", "status": 1, "witness_line": 7, "trace_line": 8,
            "rule": "ack-late", "sentence": said.format("none"), "levels": levels,
            "size": {"client": "fits", "server": "fits"},
            "said": [*NO["said"][:2], *(f"Under {level}: {said.format(level)}" for level in ("full", "none"))]})
        _, out, _ = run(*self.files(), *self.lab(), "--json")
        self.assertEqual((json.loads(out)["lines"], json.loads(out)["steps"]), (57, 88))
        ways = [{"host": 0, "way": "bytes", "does": "counts acknowledged bytes"}]
        _, out, _ = run(*self.files(), *self.lab(YES | {"ways": ways}), "--json")
        self.assertEqual(json.loads(out)["ways"], ways)

    def test_a_report(self):
        report = f"{self.folder}/kept"
        _, out, _ = run(*self.files(), *self.lab(), "--report", report, "--json")
        names = [os.path.basename(name) for name in json.loads(out)["files"]]
        self.assertEqual(names, [f"1-10.9.0.1_4000-10.9.0.2_80.{end}" for end in ("trace", "case", "svg", "txt")])
        self.assertEqual(sorted(os.listdir(report)), sorted([*names, "index.html"]))
        self.assertEqual(self.text("kept/" + names[3]), "\n".join(YES["said"]) + "\n\nexplained\n")
        self.assertEqual(self.fails(*self.files(), *self.lab(), "--report", report),
                         f"tcpwit-judge: {report} isn't empty")

    def test_rules_that_inferred_calls_leave_out(self):
        # `judge` prints what its level judges; rules 48, start-late, and 57, answer-late, need the real calls.
        said = "No duty was late{} (rules {})."
        for time, rules, judged in (("", "40 to 52", "40 to 47 and 49 to 52"),
                                    (" by more than 1 second", "40 to 50 and 52", "40 to 47, 49, 50 and 52"),
                                    ("", "40 to 49 and 52", "40 to 47, 49 and 52"),
                                    ("", "40 to 50, 52, 56 and 57", "40 to 47, 49, 50, 52 and 56"),
                                    ("", "40 to 49, 52, 56 and 57", "40 to 47, 49, 52 and 56")):
            report = f"{self.folder}/{rules}"
            _, out, _ = run(*self.files(), *self.lab(YES | {"said": [said.format(time, rules)]}), "--report", report,
                            "--json")
            found = json.loads(out)
            self.assertEqual(found["said"], [said.format(time, judged)])
            self.assertEqual(self.text(os.path.relpath(found["files"][3], self.folder)),
                             said.format(time, judged) + "\n\nexplained\n")

    def test_a_fault_of_the_lab(self):
        for answer in ("bad usage\n", {"status": 2, "answer": "too many steps", "said": ["too many steps"]}):
            status, out, _ = run(*self.files(), *self.lab(answer, 2))
            self.assertEqual(status, 2)
            self.assertIn("not judged: " + (answer.strip() if isinstance(answer, str) else answer["answer"]), out)


class Hosts(WithCaptures):
    def hosts(self, *words, files=None):
        """How many hosts a trace has, and the first segment that host 0 sent or received."""
        status, _, error = run(*(files or self.files(hosts=(0,))), *self.lab(), *words)
        self.assertEqual(status, 0, error)
        lines = self.text("given").splitlines()
        return lines[7], next(line.split()[2] for line in lines if line.split()[2:4] in (["O", "0"], ["I", "0"]))

    def test_one_of_two_hosts(self):
        self.assertEqual(self.hosts("--host", "client"), ("hosts 1", "O"))
        self.assertEqual(self.hosts("--host", "10.9.0.1"), ("hosts 1", "O"))
        self.assertEqual(self.hosts("--host", "server"), ("hosts 1", "I"))
        self.assertEqual(self.hosts("--host", "10.9.0.2"), ("hosts 1", "I"))
        self.assertEqual(self.hosts("--host", "both"), ("hosts 2", "O"))

    def test_an_unknown_host(self):
        self.talk.frames[0] = self.talk.frames[0][:1]
        name, = self.files(hosts=(0,))
        status, out, _ = run(name, *self.lab())
        self.assertEqual(status, 2)
        self.assertIn(f"not judged: nothing shows which of its hosts {name} is of (--host or --between says it)\n", out)
        self.assertIn("isn't client, server, both or an address", run(name, "--host", "x")[2])

    def test_another_host(self):
        _, out, _ = run(*self.files(hosts=(0,)), *self.lab(), "--host", "10.9.0.3")
        self.assertIn("not judged: it isn't one of 10.9.0.3", out)

    def test_a_marked_host(self):
        for address, first in (("10.9.0.1", "O"), ("10.9.0.2", "I")):
            pcap(f"{self.folder}/any.pcap", cooked(self.talk.frames[0], ip_address(address).packed), link=113)
            self.assertEqual(self.hosts(files=[f"{self.folder}/any.pcap"]), ("hosts 1", first))

    def test_loopback(self):
        self.talk = Talk(zero=("127.0.0.1", 4000), one=("127.0.0.1", 80))
        self.assertEqual(self.hosts(), ("hosts 2", "O"))

    def test_loopback_in_one_of_two_captures(self):
        for host in (0, 1):
            both, own = Talk(at=99 * 10**9), Talk(zero=("127.0.0.1", 4000), one=("127.0.0.1", 80))
            both.frames[host] += own.frames[0]
            names = self.files(both)
            self.assertIn("2 connections: 2 yes, 0 no. ", run(*names, *self.lab())[1])
            self.assertEqual(self.hosts(files=names), ("hosts 2", "O"))

    def test_two_captures_in_any_order(self):
        names = self.files()
        for files, first in ((names, "O"), (names[::-1], "I")):
            self.assertEqual(self.hosts(files=files), ("hosts 2", first))

    def test_clocks_that_differ(self):
        self.talk.frames[1] = [(moment + 300 * 10**9, frame) for moment, frame in self.talk.frames[1]]
        for files, sign in ((self.files(), ""), (self.files()[::-1], "-")):
            self.assertRegex(run(*files, *self.lab())[2],
                             rf"clocks: host 1 is {sign}(300000|299999)\d+\.\d+ us ahead of host 0 \(host 0 is that of "
                             r".*/c")
            self.hosts(files=files)
            moments = [int(line.split()[0]) for line in self.text("given").splitlines()[10:]]
            self.assertLess(moments[-1], 2 * 10**6)

    def test_a_syn_that_never_arrives(self):
        self.talk.frames = {0: self.talk.frames[0][:1], 1: []}
        other = Talk(zero=("10.9.0.1", 4001), at=99 * 10**9)
        for host in (0, 1):
            other.frames[host] += self.talk.frames[host]
        self.assertEqual(self.hosts(files=self.files(other)), ("hosts 2", "O"))

    def test_a_capture_that_was_not_running(self):
        # Each host has a connection that the other's capture lacks.
        for host, (first, role) in enumerate((("O", "client"), ("I", "server"))):
            both = Talk(zero=("10.9.0.1", 4001), at=99 * 10**9)
            both.frames[host] += self.talk.frames[host]
            for names in (self.files(both), self.files(both)[::-1]):
                self.assertEqual(self.hosts(files=names), ("hosts 1", first), role)
                self.assertIn("1 connection with one host captured: the other one isn't judged there.\n",
                              run(*names, *self.lab())[1])

    def test_a_simultaneous_open(self):
        self.talk.frames = {host: frames[:1] for host, frames in self.talk.frames.items()}
        self.talk.next[1], self.talk.at = 5000, 100 * 10**9 + 5 * 10**5
        self.talk.send(1, SYN)
        for host in (0, 1):
            self.talk.frames[host].sort()
        self.assertEqual(self.hosts(files=self.files()), ("hosts 2", "O"))
        self.assertEqual(sum(line.split()[2:4] in (["B", "open"],) for line in self.text("given").splitlines()), 2)

    def test_a_third_host(self):
        third = Talk(zero=("10.9.0.1", 4000), one=("10.9.0.9", 80), at=200 * 10**9)
        self.talk.frames[0] += third.frames[0]
        self.assertEqual(self.hosts(files=self.files()), ("hosts 1", "O"))

    def test_a_capture_that_ended_earlier(self):
        # Host 0's capture lacks the last segment that host 1 received, and what follows.
        self.talk.send(0, payload=b"more")
        self.talk.send(1)
        self.talk.frames[0] = self.talk.frames[0][:-2]
        self.hosts(files=self.files())
        self.assertNotIn(b"more".hex(), self.text("given"))


class Faults(WithCaptures):
    def test_input_that_is_no_capture(self):
        for data, message in ((b"", "neither pcap nor pcapng"), (b"nonsense", "neither pcap nor pcapng")):
            with open(f"{self.folder}/bad", "wb") as file:
                file.write(data)
            self.assertEqual(self.fails(f"{self.folder}/bad", *self.lab()),
                             f"tcpwit-judge: {self.folder}/bad: {message}")
        self.assertIn("No such file", self.fails(f"{self.folder}/missing", *self.lab()))

    def test_a_capture_that_was_cut(self):
        name, = self.files(hosts=(0,))
        with open(name, "r+b") as file:
            file.truncate(250)
        status, out, error = run(name, *self.lab(), "--host", "client")
        self.assertEqual((status, out.splitlines()[0]), (0, "10.9.0.1:4000 -> 10.9.0.2:80   full      yes 57 88"))
        self.assertEqual(error, f"tcpwit-judge: {name}: ends within packet 4: the capture was cut there, and is judged "
                         "up to packet 3\n")
        with open(name, "r+b") as file:
            file.truncate(70)
        self.assertIn("ends within packet 1", self.fails(name, *self.lab(), "--host", "client"))

    def test_nothing_to_judge(self):
        pcap(f"{self.folder}/empty", [])
        self.assertIn("the capture is empty", self.fails(f"{self.folder}/empty", *self.lab()))
        pcap(f"{self.folder}/arp", [(5, bytes(12) + b"\x08\x06" + bytes(40))])
        self.assertIn("no TCP segment", self.fails(f"{self.folder}/arp", *self.lab()))

    def test_words(self):
        names = self.files()
        self.assertIn("3 captures are given", self.fails(*names, names[0] + "x", *self.lab()))
        self.assertIn("is given twice", self.fails(names[0], names[0], *self.lab()))
        self.assertIn("--host or --between is given with two captures",
                      self.fails(*names, "--host", "client", *self.lab()))
        self.assertIn("--from none is laxer than --level recovery",
                      self.fails(*names, "--level", "recovery", "--from", "none", *self.lab()))
        self.assertIn("--from none is laxer than --level recovery",
                      self.fails(*names, "--version", "6", "--from", "none", *self.lab()))
        for level in (["--level", "full"], ["--level", "none", "--from", "full"]):
            self.assertEqual("tcpwit-judge: format version 6 has no level full",
                             self.fails(*names, "--version", "6", *level, *self.lab()))
        self.assertIn(f"\n  leave out --version, or give {level[-2]} recovery\n",
                      run(*names, "--version", "6", *level, *self.lab())[2])
        # `judge` would rewrite older traces.
        self.assertIn("invalid choice: 4", run(*names, "--version", "4", *self.lab())[2])

    def test_compressed_captures(self):
        for name in self.files():
            with open(name, "rb") as plain, gzip.open(name + ".gz", "wb") as packed:
                packed.write(plain.read())
        self.assertEqual(run(*(f"{self.folder}/c{host}.pcap.gz" for host in (0, 1)), *self.lab())[0], 0)

    def test_a_silent_host_is_judged_as_one_that_gave_up(self):
        for number in range(4):
            self.talk.send(0, payload=b"again")
            self.talk.next[0] -= 5
        late = no("expiry-late")
        run(*self.files(hosts=(0,)), *self.lab(late, 1), "--host", "client", "--level", "none")
        # With that, it isn't a yes either, so the first verdict is found again.
        self.assertEqual(self.text("words").count("judge --json"), 3)
        self.assertNotIn("giveup", self.text("given"))
        for answer in (NO, YES):
            os.remove(f"{self.folder}/words")
            run(*self.files(hosts=(0,)), *self.lab(answer, 1), "--host", "client", "--level", "none")
            self.assertEqual(self.text("words").count("judge --json"), 1)

    def test_small_connections_share_a_process(self):
        with open(f"{self.folder}/many", "w", encoding="ascii") as file:
            file.write(MANY.format(folder=self.folder, answer=json.dumps(YES | {"status": 0})))
        os.chmod(f"{self.folder}/many", 0o755)
        for host in (0, 1):
            for port in (4001, 4002, 4003):
                self.talk.frames[host] += Talk(zero=("10.9.0.1", port), at=port * 10**9).frames[host]
        words = [*self.files(), "--lab", f"{self.folder}/many", "--jobs", "1"]
        self.assertIn("4 connections: 4 yes, 0 no.", run(*words)[1])
        self.assertEqual(self.text("words"), "judge --json --least full --many\n")
        self.assertEqual(self.text("given").count("\ncongestion full\n"), 4)
        with mock.patch("tcpwit_importer.commands.verdicts.SMALL", 0):
            run(*words)
        self.assertEqual(self.text("words").splitlines()[1:], ["judge --json --least full"] * 4)

    def test_a_bug_concerns_one_connection(self):
        with mock.patch("tcpwit_importer.commands.verdicts.Trace", side_effect=ValueError("x")):
            status, out, _ = run(*self.files(), *self.lab())
        self.assertEqual(status, 2)
        bug = r"not judged: ValueError: x \(mock.py, line \d+\); this is a bug: report it with the capture\n"
        self.assertRegex(out, bug)

    def test_a_lack_of_memory_or_space(self):
        for error, said in ((MemoryError(), "memory ran out: judge fewer connections at once"),
                            (OSError(28, "No space left on device", "x"), "x: No space left on device")):
            with mock.patch("tcpwit_importer.commands.verdicts.Trace", side_effect=error):
                status, out, _ = run(*self.files(), *self.lab())
            self.assertEqual(status, 2)
            self.assertIn("not judged: " + said, out)
            self.assertNotIn("this is a bug", out)

    def test_a_killed_worker(self):
        second = Talk(zero=("10.9.0.1", 4001), at=99 * 10**9)
        for host in (0, 1):
            second.frames[host] += self.talk.frames[host]
        with mock.patch("tcpwit_importer.commands.verdicts.Judge.result", lambda *_: os.kill(os.getpid(), 9)):
            self.assertIn("a process that judges connections was ended",
                          self.fails(*self.files(second), *self.lab()[:2], "--jobs", "2"))


@unittest.skipUnless(os.environ.get("TCPWIT_LAB"), "TCPWIT_LAB names no program")
class Verdicts(WithCaptures):
    def judged(self, talk, *words, hosts=(0, 1)):
        """The lines of a run with tcpwit_lab. On a busy machine, no part of the work is shown as one that takes
        long."""
        with mock.patch("tcpwit_importer.progress.PATIENCE", 600):
            _, out, error = run(*self.files(talk, hosts), *words)
        self.assertNotIn("tcpwit-judge: ", error)
        return out.splitlines()

    def test_a_connection(self):
        for words in ({"hosts": (0, 1)}, {"hosts": (1, 0)}):
            self.assertIn("   full      yes ", self.judged(self.talk, **words)[0])
        for host, name in ((0, "client"), (1, "server")):
            self.assertIn("   full      yes ", self.judged(self.talk, "--host", name, hosts=(host,))[0])

    def test_version_6_reads_blocks(self):
        # A single acknowledgment reports four segments, so that the one before them is lost (RFC 6675, 4).
        for blocks, level in ((True, "recovery  yes "), (False, "none      yes ")):
            for words in (["--version", "6", "--level", "none", "--from", "recovery"],
                          ["--level", "none", "--from", "recovery"], ["--level", "none", "--from", "full"], []):
                self.assertIn(f"   {level}", self.judged(reporting(blocks), *words)[0])
            self.assertIn("   none      yes ", self.judged(reporting(blocks), "--version", "5")[0])

    def test_an_acknowledgment_that_is_missing(self):
        talk = Talk()
        talk.send(0, payload=b"first")
        talk.send(1)
        talk.send(0, payload=b"hello")
        talk.at += 10**10
        talk.send(0, payload=b"more")
        self.assertIn("   none      no ", self.judged(talk)[0])

    def test_resets(self):
        for flags in (RST, RST | ACK):
            for before in ((), ((1, b"ab"),), ((0, b"ab"), (1, b"cd"))):
                talk = Talk()
                for host, payload in before:
                    talk.send(host, payload=payload)
                talk.send(1, flags)
                self.assertIn("   full      yes ", self.judged(talk)[0], (flags, before))

    def test_a_program_that_gave_up_before_the_answer(self):
        talk = Talk()
        talk.frames = {0: talk.frames[0][:1], 1: talk.frames[1][:1]}
        talk.next, talk.at = {0: 1001, 1: 5000}, 100 * 10**9 + 2 * 10**6
        talk.send(1, SYN | ACK)
        talk.at = 100 * 10**9 + 9 * 10**8
        # It was long in transit.
        talk.frames[0][-1] = (talk.at, talk.frames[0][-1][1])
        talk.at += 10**6
        talk.send(0, RST)
        for words, hosts in (([], (0, 1)), (["--host", "client"], (0,)), (["--host", "server"], (1,))):
            self.assertIn(" yes ", self.judged(talk, *words, hosts=hosts)[0])

    def silent(self, retransmissions):
        """A host that retransmits so often, and then never again."""
        talk = Talk()
        talk.send(0, payload=b"first")
        talk.send(1)
        wait = SECOND // 5
        for number in range(retransmissions + 1):
            talk.send(0, payload=b"hello", lost=True)
            talk.next[0] -= 5
            talk.at += wait if number == 0 else wait * 2**number
        later = Talk(zero=("10.9.0.1", 4001), at=500 * SECOND)
        for host in (0, 1):
            talk.frames[host] += later.frames[host]
        return talk

    def test_a_host_that_gave_up(self):
        for words, hosts in (([], (0, 1)), (["--host", "client"], (0,))):
            self.assertIn(" yes ", self.judged(self.silent(4), *words, hosts=hosts)[0])
            self.assertRegex(self.judged(self.silent(1), *words, hosts=hosts)[0], " no .*-late")

    def test_a_syn_without_an_answer(self):
        talk = Talk()
        talk.frames = {0: talk.frames[0][:1], 1: talk.frames[1][:1]}
        later = Talk(zero=("10.9.0.1", 4001), at=500 * 10**9)
        for host in (0, 1):
            talk.frames[host] += later.frames[host]
        self.assertEqual([line.split()[3:5] for line in self.judged(talk)[:2]], [["full", "yes"]] * 2)


if __name__ == "__main__":
    unittest.main()
