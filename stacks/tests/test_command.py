"""Tests of the command stacks/run: what it selects, prints and writes, how it ends, and that it leaves no process."""
import contextlib
import io
import os
import re
import signal
import subprocess
import sys
import tempfile
import time
import unittest
import xml.etree.ElementTree
from types import SimpleNamespace
from unittest import mock

from tcpwit_stacks import cli, options, programs, segments, selection, table, tasks, variants
from tcpwit_stacks.judge import Judge
from tcpwit_stacks.limits import Broken, Limits, Watch
from tcpwit_stacks.outcomes import LEVELS, Outcome

TOP = os.path.dirname(os.path.dirname(os.path.abspath(__file__)))
HEAD = "show  a\nby    b\n"
# A program that judges. The case that `judge` writes is the trace at `none`.
JUDGE = """#!/bin/sh
echo "$@" >> {asked}
[ "$1" = judge ] && [ $# -gt 2 ] && for file; do :; done && sed 's/^congestion .*/congestion none/' > "$file"
case $1 in
check) {check} ;;
find) exec cat ;;
judge) echo '{{"answer":"yes","level":"none","levels":[{laxer},{{"level":"none"}}]}}' ;;
explain) echo '{{"said":["no","{said}"]}}' ;;
remark) {before_remark} echo '{{"said":["{said}"]}}' | sed 's/""//' ;;
esac
"""
# What `judge` says of a level that it refuses.
LAXER = '{"level":"recovery","rule":"old-data","sentence":"line 12 sends it again."}'
# An adapter that answers every command the same way.
ADAPTER = """#!{python}
import sys
for line in sys.stdin:
    print({answer!r}, flush=True)
"""
# An adapter whose every call is successful, if it can be without a connection.
LISTENS = """#!{python}
import sys
for line in sys.stdin:
    print("= - ok" + " 0" * ("listen" in line), flush=True)
"""


class TheCommand(unittest.TestCase):
    def setUp(self):
        folder = tempfile.TemporaryDirectory()
        self.addCleanup(folder.cleanup)
        self.folder = folder.name
        caches = mock.patch.dict(os.environ, {"XDG_CACHE_HOME": self.folder})
        caches.start()
        self.addCleanup(caches.stop)

    def run_it(self, *words):
        """Status, output and errors of stacks/run."""
        done = subprocess.run([sys.executable, os.path.join(TOP, "run"), *words], capture_output=True, text=True,
                              timeout=60)
        self.assertNotIn("Traceback", done.stderr)
        return done.returncode, done.stdout, done.stderr

    def adapter(self, text=ADAPTER, **values):
        """A program that acts as a stack."""
        path = f"{self.folder}/adapter"
        with open(path, "w") as file:
            file.write(text.format(python=sys.executable, **values))
        os.chmod(path, 0o755)
        return path

    def programs(self, check="echo yes 1 1", said="", name="judge", before_remark=""):
        """Options for a program that acts as `tcpwit`, with these commands of the shell for `check`, and as
        `tcpwit_lab`: `find` prints the trace unchanged, `judge` finds a yes at `none`, and `explain` and `remark`
        print the object whose lines are `said`, the latter after the commands `before_remark`. It lists its arguments
        in the file `asked`."""
        path = f"{self.folder}/{name}"
        with open(path, "w") as file:
            file.write(JUDGE.format(asked=f"{self.folder}/asked", check=check, said=said, before_remark=before_remark,
                                    laxer=LAXER))
        os.chmod(path, 0o755)
        return "--check", path, "--lab", path

    def test_skipped_by_the_word_cannot_alone(self):
        status, out, error = self.run_it(self.adapter(answer="= - cannot"), "open-plain", "data-bulk", *self.programs())
        self.assertEqual((status, "nothing was judged" in error), (2, True))
        self.assertIn("nothing was judged\n2 of 2 scenarios were skipped", out)
        for answer in ("= - banana", "= x ok", "=", "banana", "out 00", "expired 1", "= - again"):
            status, out, error = self.run_it(self.adapter(answer=answer), "open-plain", *self.programs())
            self.assertEqual((status, "1 broken" in out, error), (1, True, ""), answer)
            self.assertIn(f"{answer!r}, to: start 0 1", out)

    def test_only_trace_is_no_yes(self):
        status, out, error = self.run_it(self.adapter(answer="= - ok"), "hostile-closed-ack", "--only-trace", "--junit",
                                         f"{self.folder}/report.xml")
        self.assertEqual((status, error), (1, "nothing was judged: --only-trace\n"))
        self.assertRegex(out, "hostile-closed-ack +recorded ")
        self.assertNotIn("yes,", out)
        with open(f"{self.folder}/report.xml") as file:
            self.assertIn('failures="0" skipped="1"', file.read())
        self.assertEqual(self.run_it("true", "--only-trace", "--against", "/nowhere")[0], 2)

    def test_a_whole_name_is_one_scenario(self):
        def names(*words):
            return [os.path.basename(path)[:-9] for path, _ in selection.paths_of(words)]
        folder = os.path.join(TOP, "scenarios")
        self.assertEqual(names("data-bulk"), ["data-bulk"])
        self.assertEqual(names("data-bulk.scenario"), ["data-bulk"])
        self.assertEqual(names("data-bulk", f"{folder}/data-bulk.scenario"), ["data-bulk"])
        self.assertEqual(names("data-bulk-"), ["data-bulk-large-segments", "data-bulk-tiny-segments"])
        self.assertEqual(len(names()), len(os.listdir(folder)))

    def test_a_profile_that_cannot_be_used(self):
        for text, cause in (("mls 5", "profile: mls isn't a word of a profile"),
                            ("msl fast", "profile: msl 'fast' isn't a number"),
                            ("expiries any", "profile: expiries 'any' is neither all nor some"),
                            ("level strict", "profile: level 'strict' is none of full, recovery, none"),
                            ("sender bbr", "profile: sender 'bbr' is neither reno nor cubic"),
                            ("growth 3", "profile: growth '3' is none of 1, 2, any"),
                            ("msl", "profile: msl '' isn't a number"),
                            ("msl 5", "even an empty trace gets the answer 'bad trace 3'")):
            with open(f"{self.folder}/profile", "w") as file:
                file.write(text)
            judge = self.programs("grep -q '^msl 5$' && echo bad trace 3 || echo yes 1 1")
            status, out, error = self.run_it(self.adapter(answer="= - ok"), "--profile", f"{self.folder}/profile",
                                             *judge)
            self.assertEqual((status, out), (2, ""))
            self.assertIn(cause, error)

    def outcome(self, answer, level="", name="x", refused=""):
        return Outcome(SimpleNamespace(keeps=True, name=name, path=name, show="a", by="b"), answer, level, refused)

    def laxer(self, level, name):
        """An outcome with a yes at a level other than full."""
        return self.outcome("yes 7 6", level, name, "no 9 0 congestion")

    def reported(self, *words, outcomes=None, level="full"):
        """Status and output of a report of these outcomes, or of three. `level`: that of the profile."""
        outcomes = outcomes or [self.outcome("yes 5 3", "full", "one"), self.laxer("recovery", "two"),
                                self.outcome("skipped", "", "three")]
        with mock.patch.object(sys, "argv", ["run", "lwip", *words]):
            words = options.arguments()
        with contextlib.redirect_stdout(io.StringIO()) as out:
            status = cli.report(words, {"name": "a stack", "level": level}, outcomes)
        return status, out.getvalue()

    def test_the_columns(self):
        status, out = self.reported()
        lines = out.split("\n")
        self.assertEqual((status, [line[35:74].strip() for line in lines[:3]]),
                         (1, ["verdict", "yes 5 3", "yes at recovery 7 6"]))
        self.assertEqual(lines[0].split(), ["scenario", "verdict", "missing", "open", "remarks"])
        self.assertEqual(lines[3:],
                         ["    full: no 9 0 congestion", f"{'three':34} {'skipped':39}        0     0        0",
                          "1 yes; 1 yes at recovery", "1 of 3 scenarios were skipped, since the adapter can't run them",
                          ""])

    def test_verdicts_are_counted_in_one_order(self):
        outcomes = [self.outcome("broken x"), self.outcome("no 9 0 size"), self.laxer("none", "a"),
                    self.laxer("recovery", "b"), self.outcome("no 9 0 size"), self.outcome("yes 5 3", "full"),
                    self.laxer("none", "c")]
        outcomes[4].missing = outcomes[6].missing = 5
        _, out = self.reported(outcomes=outcomes)
        self.assertIn("\n1 yes; 1 yes at recovery; 1 yes at none; 1 yes at none, but; 1 no; 1 no, but; 1 broken\nbut: ",
                      out)

    def test_unfinished_remarks_are_no_count(self):
        outcome = self.outcome("yes 5 3", "full")
        outcome.unremarked = "run: it took more than 60 s; the remarks weren't finished"
        for words, status in (((), 0), (("--remarks", "fail"), 1)):
            ended, out = self.reported(*words, outcomes=[outcome])
            self.assertEqual((ended, out.split("\n")[1].split()), (status, ["x", "yes", "5", "3", "0", "0", "?"]))
            self.assertIn("\n    run: it took more than 60 s; the remarks weren't finished\n1 yes\n", out)

    def test_the_status_goes_by_the_least_level(self):
        self.assertEqual([self.reported("--least", word)[0] for word in LEVELS], [1, 0, 0])
        self.assertEqual([self.reported(level=word)[0] for word in LEVELS], [1, 0, 0])
        self.assertEqual(self.reported("--least", "full", level="recovery")[0], 1)
        for word, failures in (("full", 1), ("recovery", 0)):
            self.reported("--least", word, "--junit", f"{self.folder}/report.xml")
            with open(f"{self.folder}/report.xml") as file:
                self.assertIn(f'failures="{failures}" skipped="1"', file.read())

    def test_table_and_report_show_the_same(self):
        less = self.laxer("none", "less")
        long = self.outcome("broken the stack of host 0 ended with status 1", "", "long")
        lacking = self.outcome("yes 5 3", "full", "lacking")
        lacking.missing = 7
        _, out = self.reported("--least", "recovery", "--junit", f"{self.folder}/report.xml",
                               outcomes=[less, lacking, long])
        with open(f"{self.folder}/report.xml") as file:
            shown = re.findall(r'<failure message="([^"]*)"', file.read())
        self.assertEqual(shown,
                         ["yes at none 7 6 (full: no 9 0 congestion)",
                          "yes 5 3, but: 7 bytes were accepted and never read",
                          "broken the stack of host 0 ended with status 1"])
        for message in shown:
            self.assertIn(message.split(": 7 bytes")[0].split(" (")[0], out)
        self.assertIn("\n    7 bytes were accepted and never read\n", out)
        self.assertEqual((out.count("\nbut: "), self.reported()[1].count("\nbut: ")), (1, 0))

    def test_remarks_are_counted_and_reported(self):
        outcomes = [self.outcome("yes 5 3", "full", "one"), self.outcome("no 9 0 congestion", "", "two")]
        outcomes[0].remarks, outcomes[1].remarks = ["line 7: a -> b", "at the end: x"], ["line 8: y"]
        _, out = self.reported("--junit", f"{self.folder}/report.xml", outcomes=outcomes)
        self.assertEqual([line.split()[-1] for line in out.split("\n")[:3]], ["remarks", "2", "1"])
        self.assertNotIn("a -> b", out)
        found = [case.findtext("system-out")
                 for case in xml.etree.ElementTree.parse(f"{self.folder}/report.xml").iter("testcase")]
        self.assertEqual(found, ["line 7: a -> b\nat the end: x", "line 8: y"])
        self.assertIn("\n    line 7: a -> b\n    at the end: x\n", self.reported("-v", outcomes=outcomes)[1])
        self.assertIn("\n2 of 2 scenarios have remarks, 3 in all; -v prints them\n", out)
        self.assertNotIn("have remarks", self.reported()[1])

    def test_remarks_fail_on_request(self):
        report = f"{self.folder}/report.xml"
        outcomes = [self.outcome("yes 5 3", "full", "one"), self.outcome("yes 9 9", "full", "two")]
        outcomes[0].remarks = ["line 7: a -> b", "at the end: x"]
        self.assertEqual(self.reported("--junit", report, outcomes=outcomes)[0], 0)
        self.assertEqual(self.reported("--junit", report, "--remarks", "fail", outcomes=outcomes)[0], 1)
        found = xml.etree.ElementTree.parse(report)
        self.assertEqual([it.get("message") for it in found.iter("failure")],
                         ["yes 5 3, remarks: line 7: a -> b; at the end: x"])
        file = f"{self.folder}/expected"
        self.reported("--write-against", file, outcomes=outcomes)
        self.assertEqual([self.reported("--against", file, *more, outcomes=outcomes)[0]
                          for more in ([], ["--remarks", "fail"])], [0, 1])

    def test_the_budget_of_the_search(self):
        asked, check = f"{self.folder}/asked", "grep -q '^congestion none' && echo yes 1 1 || echo no 9 0 size"
        ran = self.adapter(answer="= - ok"), "hostile-closed-ack", *self.programs(check)
        for words, budget in (([], ""), (["--budget", "0"], " --budget 0"),
                              (["--budget", "7000000"], " --budget 7000000")):
            self.run_it(*ran, *words)
            with open(asked) as file:
                lines = {line.split(" --case")[0].strip() for line in file if line.startswith(("find", "judge"))}
            # The trial before the first scenario has --expiries.
            self.assertEqual(lines, {f"find{budget} --expiries 0,1", f"find{budget}", "judge --json",
                                     f"judge --json --least recovery{budget}"})
            os.remove(asked)
        for wrong in ("-1", "01", "1.5", "x", str(1 << 64)):
            self.assertEqual(self.run_it(*ran, "--budget=" + wrong)[0], 2)
        self.assertIn("nothing is searched", self.run_it(*ran, "--budget", "1", "--only-trace")[2])

    def test_a_stack_that_reports_all_expiries(self):
        """The search gets the hosts that are recorded: both, or only host 0 with a scripted peer."""
        profile, check = f"{self.folder}/profile", "grep -q '^congestion none' && echo yes 1 1 || echo no 9 0 size"
        ran = self.adapter(LISTENS), "--profile", profile, *self.programs(check)
        for line, hosts in (("expiries all", {"0", "0,1"}), ("expiries some", set()), ("", set())):
            with open(profile, "w") as file:
                file.write(line + "\n")
            self.run_it(*ran, self.scenario("  listen 80 as door\n"), "hostile-closed-ack")
            with open(f"{self.folder}/asked") as file:
                asked = file.read().splitlines()[4:]
            for program in ("find", "judge"):
                found = re.findall(f"^{program} .*--expiries (\\S+)", "\n".join(asked), re.M)
                self.assertEqual(set(found), hosts, asked)
            os.remove(f"{self.folder}/asked")

    def test_the_compared_values_are_shown(self):
        refused = self.outcome("no 9 0 congestion", "", "one")
        refused.why, refused.seconds = ["the step: 1 M", "  sending: SND.UNA 1", "new bytes end at 2681"], 1.5
        _, out = self.reported("--junit", f"{self.folder}/report.xml", outcomes=[refused])
        self.assertIn("    the step: 1 M\n      sending: SND.UNA 1\n    new bytes end at 2681\n", out)
        with open(f"{self.folder}/report.xml") as file:
            report = file.read()
        self.assertIn("\nthe step: 1 M\n  sending: SND.UNA 1\nnew bytes end at 2681</failure>", report)
        self.assertEqual(report.count('time="1.500"'), 2)

    def test_the_report_knows_against(self):
        file = f"{self.folder}/expected"
        with open(file, "w") as lines:
            lines.write("one: no [congestion]\ntwo: yes at recovery [congestion]\nthree: skipped\n")
        status, out = self.reported("--against", file, "--junit", f"{self.folder}/report.xml")
        with open(f"{self.folder}/report.xml") as lines:
            report = lines.read()
        self.assertEqual((status, re.findall(r'(?:failure|skipped) message="([^"]*)"', report)),
                         (1, ["one: yes (before: one: no [congestion])", "skipped"]))
        self.assertIn('failures="1" skipped="1"', report)

    def test_what_failed_runs_again(self):
        stack = self.adapter(answer="banana")
        self.assertIn("no earlier run of", self.run_it(stack, "--failed", *self.programs())[2])
        self.assertEqual(self.run_it(stack, "open-plain", "hostile-closed-ack", *self.programs())[0], 1)
        self.adapter(answer="= - ok")
        status, out, _ = self.run_it(stack, "--failed", *self.programs())
        self.assertEqual((status, out.count("open-plain "), "hostile-closed-ack  " in out, "1 broken" in out),
                         (1, 1, True, True), out)
        self.adapter(answer="= - cannot")
        self.run_it(stack, "open-plain", *self.programs())
        self.assertIn("nothing failed", self.run_it(stack, "--failed", *self.programs())[2])
        self.assertEqual(self.run_it(stack, "--failed", "open-plain")[0], 2)

    def test_more_is_shown(self):
        _, out = self.reported("-v")
        self.assertIn("    shows: a\n    by: b\n    0 lines in 0.00 s\n", out)
        self.assertNotIn("shows: ", self.reported()[1])

    def test_each_option_of_the_page_exists(self):
        with open(os.path.join(TOP, "README.md")) as file:
            named = set(re.findall(r"`(--[a-z-]+)", file.read()))
        options = re.findall(r"^  (?:-\w, )?(--[a-z-]+)", self.run_it("--help")[1], re.M)
        # --all is an option of stacks/test, and --expiries of tcpwit_lab.
        self.assertLessEqual(named - {"--all", "--expiries"}, set(options))
        self.assertIn("--failed", named)

    def test_the_outcomes_are_compared(self):
        file = f"{self.folder}/expected"
        self.reported("--write-against", file)
        with open(file) as lines:
            self.assertEqual(lines.read().split("\n")[1:],
                             ["one: yes", "two: yes at recovery [congestion]", "three: skipped", ""])
        self.assertEqual(self.reported("--against", file)[0], 0)
        with open(file, "a") as lines:
            lines.write("two: no [congestion]\n")
        status, out = self.reported("--against", file)
        self.assertEqual((status, "before: two: no [congestion]" in out), (1, True))

    def test_cases_are_kept_by_their_word(self):
        judge = SimpleNamespace(judge=lambda outcome, run, values: {"full": "a", "none": "b"})
        tasks.judge_and_keep(self.outcome("", ""), None, None, judge, self.folder)
        self.assertEqual(sorted(os.listdir(self.folder)), ["x.case", "x.none.case"])

    def shell(self, text):
        """A shell script that acts as a stack, and a file for the numbers of its processes."""
        return self.adapter("#!/bin/sh\n{script}\n", script=text.replace("PIDS", f"{self.folder}/pids"))

    def broken(self, text, *words):
        """The table of a scenario with this script as the stack."""
        status, out, error = self.run_it(self.shell(text), "hostile-closed-ack", *words, *self.programs())
        self.assertEqual((status, error, out.strip().split("\n")[-1]), (1, "", "1 broken"))
        return out

    def assert_none_is_left(self):
        """Whether the processes listed in the file end; a zombie counts as ended."""
        numbers = []
        if os.path.exists(f"{self.folder}/pids"):
            with open(f"{self.folder}/pids") as file:
                numbers = file.read().split()
        until = time.monotonic() + 30
        while any(map(self.runs, numbers)):
            self.assertLess(time.monotonic(), until, numbers)
            time.sleep(0.01)

    def runs(self, number):
        try:
            with open(f"/proc/{number}/stat") as file:
                return file.read().rsplit(")", 1)[1].split()[0] != "Z"
        except OSError:
            return False

    HANGS = "read x; sleep 1000 & echo $$ $! > PIDS; echo '= - ok'; wait"

    def test_a_stack_that_hangs(self):
        self.assertRegex(self.broken(self.HANGS, "--command-limit", "2"),
                         "host 0 printed nothing for 2 s, to: (20500 in|start) ")
        self.assert_none_is_left()

    def test_a_stack_that_dies(self):
        out = self.broken("read x; echo what went wrong >&2; printf 'a\\033b\\n' >&2; exit 7")
        self.assertIn("broken host 0 ended with status 7, to: start 0 1 536 0", out)
        self.assertIn("    host 0, standard error: what went wrong\n    host 0, standard error: a\\x1bb\n", out)
        self.assertIn("was ended by the signal SIGSEGV", self.broken("read x; kill -SEGV $$"))
        self.assertIn("was ended by the signal 40", self.broken("read x; kill -40 $$"))
        self.assertIn("ended with status 3 after '= - o'", self.broken("read x; printf '= - o'; exit 3"))
        self.assertIn("host 0 closed its output", self.broken("echo $$ > PIDS; exec >&-; exec sleep 1000"))
        self.assert_none_is_left()

    def test_a_stack_that_says_rubbish(self):
        self.assertIn("printed an unknown line: '\\xff\\x01'", self.broken("read x; printf '\\377\\001\\n'; read x"))
        self.assertIn("hex digits each: 'out 0fa'", self.broken("read x; echo out 0fa; read x"))
        self.assertIn("printed 20000 lines without an answer",
                      self.broken("while echo expired 80 4000 rto; do :; done"))
        self.assertIn("printed a line of more than 1048576 bytes", self.broken("exec tr '\\000' a < /dev/zero"))

    def assert_clean(self, *words, status):
        """Runs stacks/run: neither output has a control byte, and each shows its escape."""
        done = subprocess.run([sys.executable, os.path.join(TOP, "run"), *words], capture_output=True, timeout=60)
        said = (done.stdout + done.stderr).decode()
        self.assertEqual((done.returncode, re.findall("[\x00-\x09\x0b-\x1f\x7f-\x9f]|Traceback", said)), (status, []),
                         said)
        self.assertIn("\\x1b[2J", said)
        return said

    def test_control_bytes_of_a_stack_are_escaped(self):
        for text in ("read x; printf '= - \\033[2J\\n'; read x", "read x; printf '\\033[2J'; exit 3",
                     "printf '\\033[2J\\233\\n' >&2; exit 3", "printf '\\033[2J x\\n'; read x"):
            report = f"{self.folder}/report.xml"
            self.assert_clean(self.shell(text), "hostile-closed-ack", "-v", "--junit", report, *self.programs(),
                              status=1)
            self.assertIn("\\x1b[2J", xml.etree.ElementTree.parse(report).find("testcase/failure").text)

    def test_control_bytes_of_a_program_are_escaped(self):
        check = "grep -q '^congestion none' && echo yes 1 1 || printf 'no 9 0 \\033[2J\\n'"
        judge = self.programs(check, "made \\u001b[2J", "judge\x1b[2J")
        report = f"{self.folder}/report.xml"
        out = self.assert_clean(self.adapter(answer="= - ok"), "hostile-closed-ack", "--junit", report, *judge,
                                status=1)
        self.assertIn("no 9 0 \\x1b[2J", out)
        self.assertIn("    made \\x1b[2J\n", out)
        self.assertIn("\\x1b[2J", xml.etree.ElementTree.parse(report).find("testcase/failure").get("message"))
        self.assertEqual(xml.etree.ElementTree.parse(report).findtext("testcase/system-out"), "made \\x1b[2J")

    def test_control_bytes_of_names_and_files_are_escaped(self):
        odd = f"{self.folder}/\x1b[2J\udc9b"
        os.rename(self.adapter(answer="= - ok"), odd)
        for words in ((odd + "x", "open-plain"), (odd, odd + ".scenario"), (odd, "open-plain", "--profile", odd + "x"),
                      (odd, "open-plain", "--\x1b[2J"), (odd, "open-plain", "--against", odd + "x")):
            self.assert_clean(*words, status=2)
        with open(f"{odd}.scenario", "w") as file:
            file.write("show a \x1b[2J\nby b \x1b[2J\nthread 1 host 0\n"
                       "  open 4000 80 as \x1b[2J\n  await \x1b[2J is \x1b[2J\n")
        with open(f"{self.folder}/profile", "w") as file:
            file.write("name \x1b[2J\noptions \x1b[2J")
        report = f"{self.folder}/report.xml"
        again = f"{self.folder}/against"
        words = (odd, odd + ".scenario", "--profile", f"{self.folder}/profile", "--junit", report, *self.programs())
        self.assert_clean(*words, "-v", "--write-against", again, "--out", self.folder, status=1)
        self.assertEqual(xml.etree.ElementTree.parse(report).getroot().get("name"), "\\x1b[2J")
        self.assert_clean(*words, "--against", again, status=0)
        self.assert_clean(odd, "--failed", "--profile", f"{self.folder}/profile", *self.programs(), status=2)
        with open(again, "w") as file:
            file.write("\\x1b[2J\\x9b: \x1b[2J\n")
        self.assert_clean(*words, "--against", again, status=1)

    def test_a_scenario_and_a_run_end_in_time(self):
        slow = "while read x; do echo '= 0 ok'; sleep 0.1; done"
        self.assertIn("broken the scenario took more than 1 s", self.broken(slow, "--scenario-limit", "1"))
        status, out, _ = self.run_it(self.shell(slow), "hostile-closed-ack", "hostile-closed-syn", "--run-limit", "1",
                                     "--jobs", "1", *self.programs())
        self.assertEqual((status, out.count("\n    broken the run took more than 1 s, "), "2 broken" in out),
                         (1, 2, True))

    def test_a_verdict_outlives_remarks_that_take_too_long(self):
        judge = self.programs(before_remark="grep -q ' B status' && sleep 1000;")
        status, out, error = self.run_it(self.adapter(answer="= - ok"), self.scenario("  close c\n"), *judge,
                                         "--scenario-limit", "1")
        self.assertEqual((status, error), (1, ""))
        self.assertIn("yes 1 1, but", out)
        self.assertIn("\n    run: the scenario took more than 1 s, in judge remark; the remarks weren't finished\n",
                      out)
        self.assertNotIn("broken", out)

    def test_variants_are_rows_of_their_own(self):
        scenario, names = self.scenario("  listen 80 as door\n"), ["own", *("own" + each for each in variants.USUAL)]
        files = [f"{self.folder}/{name}" for name in ("report.xml", "written")]
        ran = (self.adapter(LISTENS), "--junit", files[0], "--out", self.folder,
               *self.programs("grep -q ' B status' && echo no 9 0 size || echo yes 1 1"))
        status, out, _ = self.run_it(*ran, scenario, "--vary", "--write-against", files[1])
        self.assertEqual((status, [line.split()[0] for line in out.split("\n") if line.startswith("own")]), (1, names))
        cases = xml.etree.ElementTree.parse(files[0]).iter("testcase")
        self.assertEqual([case.get("name") for case in cases], names)
        with open(files[1]) as file:
            self.assertEqual([line.split(":")[0] for line in file.read().splitlines()[1:]], names)
        for name in names:
            self.assertTrue(os.path.exists(f"{self.folder}/{name}.trace"))
        # --failed repeats them, and each can be run alone.
        self.assertIn("own+delay-0.7 ", self.run_it(*ran, "--failed")[1])
        self.assertEqual(self.run_it(*ran, "--failed", "--vary")[0], 2)
        self.assertEqual(self.run_it(*ran, scenario + "+delay-0.7", "--against", files[1])[0], 0)

    def test_which_variants_are_selected(self):
        def names(*words, vary=False):
            return [scenario.name for scenario in selection.scenarios_of(words, vary)]
        usual = list(variants.USUAL)
        self.assertEqual(names("data-bulk", vary=True), ["data-bulk", *("data-bulk" + each for each in usual)])
        self.assertEqual(names("data-bulk+delay-0.13", vary=True), ["data-bulk+delay-0.13"])
        self.assertEqual(names("hostile-trickle", "end-states", vary=True),
                         ["hostile-trickle", "end-states", "end-states+seed-2"])
        # The beginning of names selects those that can be varied so.
        self.assertEqual(names("end-s+loss-3"), ["end-send-after-shut+loss-3", "end-server-first+loss-3"])
        for words, cause in ((["end-states+delay-0.7"],
                              "end-states+delay-0.7: the scenario has a line `fixed` with delay"),
                             (["hostile-trickle+seed-2"], "a scripted peer has no wire"),
                             (["hostile-w+seed-2"], "hostile-w+seed-2: none of these scenarios can be varied so"),
                             (["data-bulk+"], "+ isn't a variant, such as "), (["data-bulk+sed-2"], "isn't a variant"),
                             (["data-bulk+seed-2+seed-3"], "isn't a variant"), (["data-bulk+delay-x"], "isn't a time"),
                             (["data-bulk+loss-101"], "101 is above 100"),
                             (["data-blk+seed-2"], "is neither a file nor the beginning"),
                             (["./data-blk+seed-2"], "./data-blk+seed-2: No such file")):
            status, _, error = self.run_it("true", *words)
            self.assertEqual((status, cause in error), (2, True), error)

    def scenario(self, steps, whole=""):
        """A file of a scenario with one thread."""
        path = f"{self.folder}/own.scenario"
        with open(path, "w") as file:
            file.write(f"{HEAD}{whole}thread 1 host 0\n{steps}")
        return path

    # Begins at the number {first}, whatever the command `iss` sets.
    BEGINS = """#!{python}
import sys
for line in sys.stdin:
    word = line.split()[1]
    if word == "open":
        print("out 0fa00050%08x000000005002ffff00000000" % {first})
    print("= -", {answer!r} if word == "iss" else "ok 0" if word == "open" else "ok", flush=True)
"""

    def test_skipped_if_the_first_number_is_another(self):
        for first, answer, wanted in ((2**32 - 1, "ok", "1 yes"), (5, "ok", "skipped iss at host 0"),
                                      (2**32 - 1, "cannot", "skipped iss at host 0"), (2**32 - 1, "again", "1 broken")):
            stack = self.adapter(self.BEGINS, first=first, answer=answer)
            _, out, _ = self.run_it(stack, self.scenario("  open 4000 80 as c\n", "iss 0 4294967295\n"),
                                    *self.programs())
            self.assertIn(wanted, out)

    # Sends a SYN, and sends it again at the command {again}, after printing {expired}.
    RESENDS = """#!{python}
import sys
syn = "0fa00050" + "00000001" + "00000000" + "5002ffff00000000"
for line in sys.stdin:
    moment, word = line.split()[:2]
    if word == "open":
        print("out", syn)
    elif word == {again!r} and int(moment) > 9000:
        print({expired!r} + "out", syn)
    print("=", int(moment) + 1000000 if word == "open" else "-", "ok" + " 0" * (word in ("open", "listen")), flush=True)
"""

    def warned(self, again, expired):
        """How often standard error and the report warn about missing expiries."""
        scenario, report = self.scenario("  open 4000 80 as c\n  wait 10\n"), f"{self.folder}/report.xml"
        stack = self.adapter(self.RESENDS, again=again, expired=expired)
        status, out, error = self.run_it(stack, scenario, "hostile-closed-ack", "--junit", report, *self.programs())
        self.assertIn("yes 1 1 ", out)
        said = xml.etree.ElementTree.parse(report).findall("system-out")
        self.assertEqual(error, "".join(each.text + "\n" for each in said))
        return error

    def test_missing_expiries_are_told_once(self):
        error = self.warned("tick", "")
        self.assertEqual(error.count("warning: the stack retransmitted at a tick in 1 of 2 scenarios, but the adapter "
                                     "reported no expired timer"), 1)
        self.assertTrue(error.endswith("stacks/README.md, \"The adapter's protocol\".\n"))
        self.assertEqual((self.warned("tick", "expired 4000 80 rto\n"), self.warned("in", "")), ("", ""))

    def test_one_reported_expiry_is_enough(self):
        more = {"resent": True}, {"resent": True, "expired": True}, {"expired": True}, {}
        outcomes = [SimpleNamespace(**{"resent": False, "expired": False, **each}) for each in more]
        self.assertEqual([bool(table.warning(some))
                          for some in (outcomes[:1], outcomes[:2], outcomes[2:], [outcomes[0], outcomes[2]])],
                         [True, False, False, True])

    def test_a_storm_ends_a_scenario(self):
        ack = segments.write(segments.Segment(4000, 80, 100, 0, segments.ACK, 1000, b"", b"")).hex()
        stack = self.adapter("""#!{python}
import sys
for line in sys.stdin:
    print("out {ack}\\n= - ok" + " 0" * ("listen" in line), flush=True)
""", ack=ack)
        scenario = self.scenario("  listen 80 as door\n  wait 100\n", "delay 0.001\n")
        status, out, _ = self.run_it(stack, scenario, "--events", "400", "--out", self.folder, *self.programs())
        self.assertEqual((status, "1 yes, but" in out), (1, True), out)
        self.assertIn("run: ended after 400 events: a storm of acknowledgments from line 14 of the trace on, of which "
                      "100 lines are kept", out)
        self.assertIn(f"line 14: 2000 93 I 1 {ack}", out)
        with open(f"{self.folder}/own.trace") as file:
            lines = file.read().split("\n")
        self.assertEqual((lines[13], len(lines)), (f"2000 93 I 1 {ack}", 13 + 100 + 2 + 1))
        last = lines[-4].split()[0]
        self.assertEqual(lines[-3:], [f"{last} 96 B status 0", f"{last} 96 E badsocket", ""])

    def test_a_program_that_takes_too_long(self):
        with self.assertRaises(Broken) as caught:
            Judge(["sleep"], [], Watch(Limits(scenario=0.2), float("inf"))).call(["sleep"], ["1000"], "")
        self.assertEqual(str(caught.exception), "the scenario took more than 0.2 s, in sleep 1000")

    LEAVES = ("setsid sh -c 'echo $$ > PIDS; exec sleep 100' > /dev/null 2>&1 < /dev/null & until [ -s PIDS ]; do "
              "sleep 0.01; done")

    def test_a_process_that_left_its_group_is_ended(self):
        for text in (f"read x; {self.LEAVES}; exit 3", f"read x; ({self.LEAVES}); exit 3",
                     f"({self.LEAVES}); while read x; do echo '= - ok'; done", f"read x; {self.LEAVES}; sleep 100",
                     f"read x; {self.LEAVES.replace('setsid', 'env -i setsid')}; exit 3"):
            self.run_it(self.shell(text), "hostile-closed-ack", "--command-limit", "3", *self.programs())
            self.assert_none_is_left()
            os.remove(f"{self.folder}/pids")

    def test_children_that_the_runner_had_before_are_kept(self):
        words = [sys.executable, os.path.join(TOP, "run"), self.shell(f"read x; ({self.LEAVES}); exit 3"),
                 "hostile-closed-ack", *self.programs()]
        done = subprocess.run(["sh", "-c", "sleep 100 > /dev/null & echo $!; exec \"$@\"", "sh", *words],
                              stdout=subprocess.PIPE, text=True, timeout=60)
        before = int(done.stdout.split()[0])
        self.assertTrue(self.runs(before))
        os.kill(before, signal.SIGKILL)
        self.assertEqual(done.returncode, 1)
        self.assert_none_is_left()

    def test_no_process_is_left_after_a_signal(self):
        stack = self.shell(self.HANGS.replace("> PIDS", "> PIDS.tmp; mv PIDS.tmp PIDS"))
        run = subprocess.Popen([sys.executable, os.path.join(TOP, "run"), stack, "hostile-closed-ack",
                                "--command-limit", "1000", "--scenario-limit", "1000", *self.programs()],
                               stdout=subprocess.PIPE, stderr=subprocess.STDOUT, text=True)
        while not os.path.exists(f"{self.folder}/pids") and run.poll() is None:
            time.sleep(0.01)
        run.terminate()
        self.assertEqual((run.communicate(timeout=60)[0], run.returncode), ("", 143))
        self.assert_none_is_left()

    def test_results_are_told_as_they_come(self):
        def outcomes():
            yield self.outcome("yes 5 3", "full", "one")
            self.assertIn("one   ", out.getvalue())
            with open(report) as file:
                self.assertEqual((file.read().count("<testcase"), file.tell() > 0), (1, True))
            yield self.outcome("yes 5 3", "full", "two")
        report = f"{self.folder}/report.xml"
        with mock.patch.object(sys, "argv", ["run", "lwip", "--junit", report]):
            words = options.arguments()
        with contextlib.redirect_stdout(io.StringIO()) as out:
            self.assertEqual(cli.report(words, {"name": "a stack", "level": "full"}, outcomes()), 0)

    def test_files_that_are_no_text(self):
        path = f"{self.folder}/x.scenario"
        with open(path, "wb") as file:
            file.write(b"\xff\xfe")
        for words in ([path], ["open-plain", "--profile", path], ["open-plain", "--against", path]):
            self.assertEqual(self.run_it("true", *words), (2, "", f"{path} isn't text\n"))

    def test_a_file_that_fails_is_named(self):
        stack, there, full = self.adapter(answer="= - ok"), f"{self.folder}/adapter/report.xml", f"{self.folder}/full"
        for name, target in (("full", "/dev/full"), ("memory.scenario", "/proc/self/mem"),
                             ("hostile-closed-ack.trace", "/dev/full")):
            os.symlink(target, f"{self.folder}/{name}")
        memory, gone = f"{self.folder}/memory.scenario", "/nowhere/report.xml"
        for words, name, cause in ((["--junit", gone], gone, "No such file or directory"),
                                   (["--junit", there], there, "Not a directory"),
                                   (["--junit", self.folder], self.folder, "Is a directory"),
                                   (["--write-against", gone], gone, "No such file or directory"),
                                   (["--write-against", self.folder], self.folder, "Is a directory"),
                                   (["--against", self.folder], self.folder, "Is a directory"),
                                   (["--against", gone], gone, "No such file or directory"),
                                   (["--against", memory], memory, "Input/output error"),
                                   (["--profile", self.folder], self.folder, "Is a directory"),
                                   (["--profile", memory], memory, "Input/output error"),
                                   (["--out", there], f"{self.folder}/adapter/report.xml", "Not a directory"),
                                   (["--out", stack], stack, "File exists")):
            self.assertEqual(self.run_it(stack, "hostile-closed-ack", *words, *self.programs()),
                             (2, "", f"{name}: {cause}\n"))
        self.assertRegex(self.run_it(stack, memory)[2], "^/proc/[0-9]+/mem: Input/output error\n$")
        os.mkfifo(f"{self.folder}/pipe")
        for words, cause in (([stack, "/nowhere/x"], "/nowhere/x: No such file or directory"),
                             ([stack, self.folder], f"{self.folder}: Is a directory"),
                             ([stack, f"{self.folder}/pipe"], f"{self.folder}/pipe: not a regular file")):
            self.assertEqual(self.run_it(*words), (2, "", f"{cause}\n"))
        for words, name in ((["--junit", full], full), (["--write-against", full], full),
                            (["--out", self.folder], f"{self.folder}/hostile-closed-ack.trace")):
            status, _, error = self.run_it(stack, "hostile-closed-ack", *words, *self.programs())
            self.assertEqual((status, error), (2, f"{name}: No space left on device\n"))

    def test_standard_output_that_fails_is_named(self):
        for words in ((self.adapter(answer="= - ok"), "hostile-closed-ack", *self.programs()), ("--help",)):
            with open("/dev/full", "w") as full:
                done = subprocess.run([sys.executable, os.path.join(TOP, "run"), *words], stdout=full,
                                      stderr=subprocess.PIPE, text=True, timeout=60)
            self.assertEqual((done.returncode, done.stderr), (2, "standard output: No space left on device\n"))

    def test_a_program_that_is_missing_is_named(self):
        os.chmod(self.adapter(answer="= - ok"), 0o644)
        file = f"{self.folder}/adapter"
        nor = f"is neither a folder next to {TOP}/run nor a program: "
        for words, cause in ((["/nowhere/x", "open-plain"], f"/nowhere/x {nor}No such file or directory"),
                             ([file, "open-plain"], f"{file} {nor}Permission denied"),
                             (["no-such-stack", "open-plain"], f"no-such-stack {nor}PATH has no such program"),
                             (["true", "open-plain", "--check", file],
                              f"tcpwit isn't found: --check {file}: Permission denied"),
                             (["true", "open-plain", "--check", "true", "--lab", "/nowhere"],
                              "tcpwit_lab isn't found: --lab /nowhere: No such file or directory"),
                             (["true", "open-plain", "--check", "true", "--lab", self.folder],
                              f"tcpwit_lab isn't found: --lab {self.folder}: Is a directory")):
            self.assertEqual(self.run_it(*words), (2, "", cause + "\n"))
        with mock.patch.dict(os.environ, {"TCPWIT": "/nowhere"}):
            self.assertEqual(self.run_it("true", "open-plain"),
                             (2, "", "tcpwit isn't found: TCPWIT=/nowhere: No such file or directory\n"))

    def test_the_two_programs_are_named_apart(self):
        nothing = {"PATH": self.folder, "TCPWIT": "", "TCPWIT_LAB": ""}
        with mock.patch.dict(os.environ, nothing), mock.patch.object(programs, "kept", lambda name: None):
            self.assertEqual(self.told_of_programs(),
                             "tcpwit and tcpwit_lab aren't found. The package tcpwit contains both "
                             "(packaging/README.md). Otherwise give --check and --lab, or set TCPWIT and TCPWIT_LAB.\n")
            for there, lacking, option, variable in (("tcpwit", "tcpwit_lab", "--lab", "TCPWIT_LAB"),
                                                     ("tcpwit_lab", "tcpwit", "--check", "TCPWIT")):
                path = f"{self.folder}/{there}"
                os.symlink("/bin/true", path)
                self.assertEqual(self.told_of_programs(),
                                 f"{lacking} isn't found, but {there} is: {path}. The package tcpwit contains both "
                                 f"(packaging/README.md). Otherwise give {option}, or set {variable}.\n")
                os.remove(path)

    def told_of_programs(self):
        """The output if a program is missing."""
        with contextlib.redirect_stderr(io.StringIO()) as error, self.assertRaises(SystemExit) as ended:
            programs.programs(SimpleNamespace(check=None, lab=None))
        self.assertEqual(ended.exception.code, 2)
        return error.getvalue()

    def test_a_no_is_explained_as_of_a_simulated_wire(self):
        check = "grep -q '^congestion none' && echo yes 1 1 || echo no 9 0 size"
        status, out, _ = self.run_it(self.adapter(answer="= - ok"), "hostile-closed-ack", *self.programs(check, "why"))
        self.assertEqual(status, 1)
        self.assertIn("\nhostile-closed-ack                 yes at none 1 1, but  ", out)
        self.assertIn("\n    full: no 9 0 size\n    why\n    recovery: line 12 sends it again.\n"
                      "    peer, line 7: no rst arrived\n1 yes at none, but\n", out)
        with open(f"{self.folder}/asked") as file:
            self.assertIn("explain --simulated --json\n", file.readlines())

    def test_a_stack_that_cannot_be_started(self):
        status, _, error = self.run_it(self.adapter("nothing to run"), "open-plain", *self.programs())
        self.assertEqual((status, error), (2, f"{self.folder}/adapter: Exec format error\n"))

    def test_a_word_with_a_slash_is_a_path(self):
        for name in ("toy", "lwip"):
            self.assertEqual(programs.folder_of(name), os.path.join(TOP, name))
        with tempfile.TemporaryDirectory() as folder:
            stack = os.path.join(folder, "toy")
            with open(stack, "w") as file:
                file.write("#!/bin/sh\n")
            os.chmod(stack, 0o755)
            done = os.getcwd()
            os.chdir(folder)
            try:
                self.assertIsNone(programs.folder_of("./toy"))
                self.assertEqual(programs.stack_of(SimpleNamespace(stack="./toy", profile=None), folder),
                                 [os.path.realpath(stack)])
                self.assertNotEqual(selection.memory("./toy"), selection.memory("toy"))
                os.mkdir("lwip")
                with self.assertRaises(SystemExit), contextlib.redirect_stderr(io.StringIO()) as error:
                    programs.stack_of(SimpleNamespace(stack="./lwip", profile=None), folder)
                self.assertIn("./lwip is a folder, but ", error.getvalue())
            finally:
                os.chdir(done)

    def test_what_cannot_be_run(self):
        self.assertEqual(self.run_it("lwip", "--least", "cubic")[0], 2)
        for words, cause in ((["/nowhere"], "neither a folder"),
                             (["true", "--profile", "/nowhere", "data-bulk"], "/nowhere: No such file"),
                             (["true", "data-bluk"], "'data-bluk' is neither a file"),
                             (["true", "data-bulk", ""], "'' is neither"), (["tests"], "tests/build"),
                             ([os.path.join(TOP, "scenarios")], "scenarios/build"),
                             (["true", "--jobs", "0"], "'0' isn't a number"),
                             (["true", "--jobs", "x"], "'x' isn't a number"),
                             (["true", "data-bulk", "--check", "true", "--lab", "true"],
                              "true is older than this suite"),
                             (["true", "data-bulk", "--check", "true", *self.programs()[2:]],
                              "true check printed nothing and ended with status 0"),
                             (["true", "data-bulk", "--junit", ""], "--junit: the name is empty")):
            status, out, error = self.run_it(*words)
            self.assertEqual((status, out), (2, ""), error)
            self.assertIn(cause, error)
