"""Tests how both commands use `tcpwit_lab judge`, which a script with chosen answers replaces."""
import contextlib
import errno
import gc
import gzip
import io
import os
import subprocess
from unittest import mock

from tcpwit_importer.capture.packets import Packet
from tcpwit_importer.commands import lab
from tcpwit_importer.commands.levels import joined
from tcpwit_importer.commands.tcpwit_record import main as recording
from tcpwit_importer.problem import plain
from tcpwit_importer.recording import folder
from tcpwit_importer.recording.programs import Traced
from tcpwit_importer.recording.recorder import Recording
from tcpwit_importer.trace.endpoints import Endpoint

from . import test_command
from .test_command import run

# Saves its arguments and the trace, and a case and a picture if requested; `judge` prints the answer that the test
# chose, which may be another one for a trace of version 6. Before that, the commands check that it has `judge`, without
# other arguments and with an empty trace.
SCRIPT = """#!/bin/sh
[ "$*" = judge ] && {known}
echo "$@" >> {folder}/words
if [ "$1" = draw ]; then echo '<svg/>'; exit 0; fi
cat > {folder}/given
while [ "$1" != --case ]; do shift; done
echo a case > "$2"
case "$(head -n 1 {folder}/given)" in "trace 6") cat {folder}/below ;; *) cat {folder}/answer ;; esac
{end}
"""
RECORDER = "tcpwit_importer.commands.tcpwit_record"
BELOW = "none      yes 101 85\nThe run follows RFC 9293.\n"
LINES = "full      no 57 88 congestion\n" + BELOW


class Judging(test_command.WithFiles):
    def lab(self, answer, end="exit 0", known="exit 2", below=None):
        """Writes a program with this answer, and perhaps another one for a trace of version 6. Returns the options that
        name it."""
        for name, text in (("answer", answer), ("below", answer if below is None else below)):
            with open(f"{self.folder}/{name}", "w", encoding="ascii") as file:
                file.write(text)
        with open(f"{self.folder}/lab", "w", encoding="ascii") as file:
            file.write(SCRIPT.format(folder=self.folder, end=end, known=known))
        os.chmod(f"{self.folder}/lab", 0o755)
        return ["--lab", f"{self.folder}/lab"]

    def text(self, name):
        """The text of a file."""
        with open(f"{self.folder}/{name}", encoding="ascii") as file:
            return file.read()

    def importing(self, *words):
        """Imports into run.trace."""
        return run(*self.captures, *self.logs, "--out", f"{self.folder}/run.trace", *words)

    def test_the_lines_are_printed(self):
        status, out, error = self.importing(*self.lab(LINES))
        self.assertEqual((status, out), (0, LINES), error)
        self.assertEqual(self.text("words"), "judge --least full --case ./run.case\n")
        self.assertEqual((self.text("run.trace"), self.text("run.case")), (self.text("given"), "a case\n"))

    def test_the_budget(self):
        self.importing(*self.lab(LINES), "--budget", "0")
        self.importing(*self.lab(LINES), "--budget", "5000000", "--congestion", "none")
        self.assertEqual(self.text("words"),
                         "judge --least full --budget 0 --case ./run.case\njudge --least none --budget 5000000 --case "
                         "./run.case\n")
        for wrong in ("-1", "1.5", "x", str(2**64)):
            self.assertEqual(self.importing(*self.lab(LINES), "--budget=" + wrong)[0], 2)

    def test_the_first_level(self):
        self.importing(*self.lab(LINES), "--congestion", "none", "--from", "full")
        self.recorded(*self.lab(LINES), "--congestion", "none", "--from", "recovery")
        self.assertEqual(self.text("words"),
                         "judge --least full --case ./run.case\njudge --least none --from recovery --case "
                         "./run.case\ndraw\n")
        self.refused([*self.captures, *self.logs, "--out", f"{self.folder}/run.trace", "--from", "none",
                      *self.lab(LINES)], "--from none is laxer than --congestion full")
        with mock.patch("os.geteuid", return_value=0):
            self.refused(["--transfer", "5", "--congestion", "recovery", "--from", "none", *self.lab(LINES)],
                         "--from none is laxer than --congestion recovery", recording)

    def test_the_levels_of_version_6(self):
        self.importing(*self.lab(LINES), "--version", "6")
        self.assertEqual(self.text("run.trace")[:8], "trace 6\n")
        self.importing(*self.lab(LINES), "--version", "6", "--congestion", "none", "--from", "recovery")
        self.recorded(*self.lab(LINES), "--version", "6")
        self.assertEqual(self.text("kept/run.trace").splitlines()[8:],
                         self.text("given").splitlines()[8:])
        self.assertEqual(self.text("kept/run.trace").splitlines()[8], "congestion recovery")
        self.assertEqual(self.text("words"),
                         "judge --least recovery --case ./run.case\njudge --least none --from recovery --case "
                         "./run.case\njudge --least recovery --case ./run.case\ndraw\n")
        self.refused([*self.captures, *self.logs, "--out", f"{self.folder}/run.trace", "--version", "6", "--from",
                      "none", *self.lab(LINES)], "--from none is laxer than --congestion recovery")

    def test_levels_below_full_have_version_6(self):
        for words, runs in (([], ["full", "recovery"]), (["--congestion", "full"], ["full", "recovery"]),
                            (["--congestion", "recovery", "--from", "full"], ["full", "recovery"]),
                            (["--congestion", "none", "--from", "full"], ["full", "none --from recovery"]),
                            (["--congestion", "recovery"], ["recovery"]), (["--congestion", "none"], ["none"])):
            for act in (self.importing, self.recorded):
                with self.subTest(words, act=act):
                    status, out, _ = act(*self.lab(LINES, "exit 1", below=BELOW), *words)
                    self.assertEqual((status, out), (1, LINES if runs[0] == "full" else BELOW))
                    said = [line for line in self.text("words").splitlines() if line != "draw"]
                    self.assertEqual(said, [f"judge --least {run} --case ./run.case" for run in runs])
                    # The trace has the version of the level that was asked for.
                    trace = self.text("run.trace" if act == self.importing else "kept/run.trace").splitlines()
                    self.assertEqual(trace[0], "trace 5" if words[1:2] in ([], ["full"]) else "trace 6")
                    given = self.text("given").splitlines()
                    self.assertEqual((given[0], given[9:12]),
                                     ("trace 6", ["slack 1000000", "sender cubic", "growth any"]))
                    self.assertEqual(given[12:], trace[10 if trace[0] == "trace 5" else 12:])
                    os.remove(f"{self.folder}/words")

        # For `full`, a trace of version 6 is read in version 5.
        self.importing(*self.lab(LINES), "--congestion", "none", "--from", "full", "--slack", "any", "--skew", "7")
        given, trace = self.text("given").splitlines(), self.text("run.trace").splitlines()
        self.assertEqual(given, ["trace 5", "skew 7", *trace[2:8], "congestion full", "slack any", *trace[12:]])

    def test_a_chosen_version_has_all_levels(self):
        for version, level in (("5", "full"), ("6", "recovery"), ("4", "full")):
            self.assertEqual(self.importing(*self.lab(LINES, "exit 1"), "--version", version)[:2], (1, LINES))
            self.assertEqual(self.text("words"), f"judge --least {level} --case ./run.case\n")
            self.assertEqual(self.text("given")[:8], f"trace {version}\n")
            os.remove(f"{self.folder}/words")
        self.importing(*self.lab(LINES, "exit 1"), "--version", "5", "--congestion", "none", "--from", "full")
        self.assertEqual(self.text("words"), "judge --least none --from full --case ./run.case\n")
        self.assertEqual(self.text("run.trace").splitlines()[:9:8], ["trace 5", "congestion none"])

    def test_a_yes_below_full_counts_if_it_was_asked_for(self):
        # The status is 0 only for a trace of version 6.
        words = self.lab(LINES, f'case "$(head -n 1 {self.folder}/given)" in "trace 6") exit 0 ;; *) exit 1 ;; esac',
                         below=BELOW)
        for given, status in (([], 1), (["--congestion", "recovery", "--from", "full"], 0),
                              (["--congestion", "none", "--from", "full"], 0), (["--congestion", "none"], 0)):
            self.assertEqual(self.importing(*words, *given)[0], status, given)

    def test_what_full_refused_comes_before_what_others_refused(self):
        full = ["full      no 9 0 congestion", "recovery  no 8 0 sample", "none      yes 5 4", "A yes.",
                "Under full{}: line 7 sends too much.", *["Under recovery: line 9: a sample (sample)."],
                "Under full, without duties: yes 5 4", "The case has all 5 event lines of the trace, in order."]
        below = ["recovery  no 8 0 sample", "none      yes 6 5", "Another yes.", "Under recovery: line 8: it's late.",
                 "The case has all 6 event lines of the trace, in order."]
        for others in ("", " and recovery", ", recovery and none"):
            said = [line.format(others) for line in full]
            refused = ["Under full: line 7 sends too much.", "Under full, without duties: yes 5 4"]
            self.assertEqual(joined(said, below), [full[0], *below[:3], *refused, *below[3:]])
            self.assertEqual(joined(said, below[:3]), [full[0], *below[:3], *refused])
        self.assertEqual(joined([], below), below)

    def test_the_slack(self):
        self.importing(*self.lab(LINES), "--slack", "any")
        self.assertEqual(self.text("run.trace").splitlines()[9], "slack any")
        self.recorded(*self.lab(LINES), "--slack", "0")
        self.assertEqual(self.text("kept/run.trace").splitlines()[9], "slack 0")
        self.assertEqual(self.text("words"),
                         "judge --least full --slack any --case ./run.case\njudge --least full --slack 0 --case "
                         "./run.case\ndraw\n")

    def test_the_status_is_that_of_the_word(self):
        status, out, _ = self.importing(*self.lab(LINES, "exit 1"), "--congestion", "recovery")
        self.assertEqual((status, out), (1, LINES))
        self.assertIn("judge --least recovery ", self.text("words"))
        self.assertEqual(self.text("run.trace").splitlines()[8], "congestion recovery")

    def test_a_no_is_printed_once_and_an_error_has_another_status(self):
        for act in (self.importing, self.recorded):
            status, out, error = act(*self.lab(LINES, "exit 1", below=BELOW))
            self.assertEqual((status, out), (1, LINES))
            self.assertNotIn("congestion\n", error)
        words = [*self.captures, *self.logs, "--out", f"{self.folder}/run.trace", *self.lab(LINES, "exit 1")]
        with mock.patch("tcpwit_importer.commands.tcpwit_import.read_log", side_effect=ValueError("some fault")):
            self.refused(words, "tcpwit-import: ValueError: some fault (")
            status, out, error = self.recorded(*self.lab(LINES, "exit 1"))
        self.assertEqual((status, out), (2, ""))
        self.assertRegex(error,
                         r"tcpwit-record: ValueError: some fault \(mock.py, line \d+\)\n  this is a bug in "
                         r"tcpwit-record: report it")

    def test_several_traces_are_named(self):
        two = [test_command.talk(zero=("10.9.0.1", port)) for port in (4000, 4001)]
        for host in (0, 1):
            two[0].frames[host] += two[1].frames[host]
        second = [(9, moment, text) for _, moment, text in test_command.CLIENT[:4]]
        client = sorted(test_command.CLIENT[:4] + second, key=lambda line: line[1])
        self.captures, self.logs = two[0].write(self.folder)[:3], self.write_logs(client, [])[:3]
        status, out, error = run(*self.captures, *self.logs, "--each", "connection", "--out", f"{self.folder}/out",
                                 *self.lab(LINES, "exit 1", below=BELOW))
        self.assertEqual(status, 1, error)
        lines = ["  " + line for line in LINES.splitlines()]
        self.assertEqual(out.splitlines(),
                         ["1-10.9.0.1:4000-10.9.0.2:80:", *lines, "2-10.9.0.1:4001-10.9.0.2:80:", *lines])
        self.assertEqual(sorted(os.listdir(f"{self.folder}/out")),
                         [f"{n}-10.9.0.1_400{n - 1}-10.9.0.2_80.{end}" for n in (1, 2) for end in ("case", "trace")])

    def test_no_check_judges_nothing(self):
        status, out, _ = self.importing("--no-check", "--lab", "/nowhere")
        self.assertEqual((status, out, self.text("run.trace")[:8]), (0, "", "trace 5\n"))

    def test_a_program_that_fails(self):
        words = [*self.captures, *self.logs, "--out", f"{self.folder}/run.trace"]
        for answer, end, cause in (("bad trace 9 12 13 number\n", "exit 2", "run.trace: bad trace 9 12 13 number"),
                                   ("bad usage\n", "exit 3", "run.trace: bad usage"),
                                   ("bad memory\n", "exit 4", "run.trace: bad memory"),
                                   ("bad device\n", "echo ./run.case: full >&2; exit 5",
                                    "run.trace: bad device; ./run.case: full"), ("", "exit 9", "ended with status 9"),
                                   ("", "kill -KILL $$", "ended by signal 9")):
            with self.subTest(end):
                self.refused([*words, "--quiet", *self.lab(answer, end)], cause)
        self.refused([*self.captures, *self.logs, "--quiet", "--out", "/dev/null", *self.lab(LINES)],
                     "/dev/null isn't a file")
        for known in ("exit 0", "exit 1", "exit 3"):
            self.refused([*words, "--quiet", *self.lab(LINES, known=known)], "has no command judge")

    def test_a_program_that_is_none(self):
        words = [*self.captures, *self.logs, "--quiet", "--out", f"{self.folder}/run.trace"]
        with open(f"{self.folder}/text", "w", encoding="ascii") as file:
            file.write("no program")
        self.refused([*words, "--lab", f"{self.folder}/text"], "/text: Permission denied\n")
        self.refused([*words, "--lab", self.folder], f"{self.folder}: Is a directory\n")
        self.refused([*words, "--lab", "/nowhere"], "/nowhere: No such file or directory\n")
        os.chmod(f"{self.folder}/text", 0o755)
        self.refused([*words, "--lab", f"{self.folder}/text"], "text: Exec format error")
        with mock.patch.dict(os.environ, {"PATH": self.folder}), mock.patch.object(lab, "TOP", self.folder):
            os.environ.pop(lab.VARIABLE, None)
            self.refused(words, "tcpwit_lab is not in PATH")
            self.refused(words, "install the package tcpwit, which contains tcpwit and tcpwit_lab")
            os.symlink(self.lab(LINES)[1], f"{self.folder}/tcpwit_lab")
            self.assertEqual(lab.program(None), f"{self.folder}/tcpwit_lab")
        with mock.patch.dict(os.environ, {lab.VARIABLE: f"{self.folder}/lab"}):
            self.assertEqual(lab.program(None), f"{self.folder}/lab")

    def test_a_case_stands_beside_its_trace(self):
        self.assertEqual([lab.case_of(name) for name in ("a/run.trace", "run", "a.case")],
                         ["a/run.case", "run.case", "a.case.case"])

    def recorded(self, *words):
        """Records the same files."""
        with mock.patch("os.geteuid", return_value=0), mock.patch(f"{RECORDER}.refuse_missing"), \
                mock.patch(f"{RECORDER}.recorded", return_value=self.captures + self.logs):
            return run("--transfer", "5", "--out", f"{self.folder}/kept", *words, command=recording)

    def test_a_recording_is_judged(self):
        status, out, error = self.recorded("--congestion", "none", *self.lab(LINES))
        self.assertEqual((status, out), (0, LINES), error)
        self.assertEqual(self.text("words"), "judge --least none --case ./run.case\ndraw\n")
        self.assertEqual(self.text("kept/run.trace").splitlines()[7:9], ["hosts 2", "congestion none"])
        self.assertEqual((self.text("kept/run.case"), self.text("kept/run.svg")), ("a case\n", "<svg/>\n"))
        self.assertEqual(self.recorded(*self.lab(LINES, "exit 1", below=BELOW))[:2], (1, LINES))
        self.assertEqual(self.text("kept/run.trace")[:8], "trace 5\n")

    def test_a_program_that_failed_is_named_with_the_verdict(self):
        for status, said in ((0, None), (22, "curl\x1b[2J ended with status 22"),
                             (-11, "curl\x1b[2J was ended by SIGSEGV")):
            program = Traced.__new__(Traced)
            program.words, program.process = ["curl\x1b[2J", "http://10.9.0.2/"], mock.Mock(returncode=status)
            with mock.patch.object(Traced, "logged", return_value=b"a call"), \
                    mock.patch("tcpwit_importer.recording.recorder.congestion_control", return_value="cubic"):
                kept = Recording(mock.Mock(out=f"{self.folder}/kept", seconds=None))
                kept.remark_on_kernel()
                kept.finish(program)
            kernel = "the kernel's congestion control is cubic"
            self.assertEqual(kept.remarks, [kernel, said] if said else [kernel])
            with mock.patch("tcpwit_importer.commands.tcpwit_record.Recording", return_value=kept):
                error = self.recorded(*self.lab(LINES))[2]
            self.assertEqual([line for line in kept.remarks if f"tcpwit-record: {plain(line)}\n" in error],
                             kept.remarks)
            self.assertNotIn("\x1b", error)
        # A program that --seconds ended didn't fail.
        program.process.wait.side_effect = subprocess.TimeoutExpired("curl", 1)
        with mock.patch.object(Traced, "logged", return_value=b"a call"):
            kept.remarks = []
            kept.finish(program)
        self.assertEqual(kept.remarks, [])

    def test_ctrl_c_ends_the_programs_and_the_rest_is_judged(self):
        program = Traced.__new__(Traced)
        program.words, program.process = ["client"], mock.Mock(returncode=None)
        program.process.wait.side_effect = KeyboardInterrupt
        for form in ({"pair": "b", "serve": False}, {"pair": None, "serve": True}):
            kept = Recording(mock.Mock(out=f"{self.folder}/kept", seconds=None, no_check=False, **form))
            with mock.patch.object(Traced, "logged", return_value=b"a call"), \
                    contextlib.redirect_stderr(io.StringIO()) as error:
                kept.finish(program)
            self.assertEqual(error.getvalue(),
                             "tcpwit-record: interrupted: the programs are ended, and what was recorded is judged; "
                             "Ctrl-C again stops that\n")
            self.assertEqual(kept.remarks, [])

    def test_what_is_kept_after_ctrl_c(self):
        words = ("--transfer", "5", "--out", f"{self.folder}/kept", *self.lab(LINES))
        with mock.patch("os.geteuid", return_value=0), mock.patch(f"{RECORDER}.refuse_missing"), \
                mock.patch.object(Recording, "pair", side_effect=KeyboardInterrupt):
            status, out, error = run(*words, command=recording)
        self.assertEqual((status, out), (130, ""))
        self.assertEqual(error,
                         "tcpwit-record: ended before the recording was complete; its files so far are in "
                         f"{self.folder}/kept\n")
        with mock.patch.object(lab, "on_file", side_effect=[mock.Mock(returncode=2), KeyboardInterrupt]):
            status, out, error = self.recorded(*self.lab(LINES))
        self.assertEqual((status, out), (130, ""))
        self.assertEqual(error.split("tcpwit-record: ")[2:],
                         ["interrupted before everything was judged\n", f"all files are in {self.folder}/kept\n"])
        self.assertEqual(os.listdir(f"{self.folder}/kept"), ["run.trace"])

    def test_a_case_that_is_incomplete_is_removed(self):
        words = [*self.captures, *self.logs, "--quiet", "--out", f"{self.folder}/run.trace"]
        for end, remedy in (("exit 5", "choose a place that can be written and has space for the case"),
                            ("exit 4", "record fewer bytes"), ("kill -9 $$", "record fewer bytes"),
                            ("exit 3", "check whether this works: ")):
            status, out, error = run(*words, *self.lab("", end))
            self.assertEqual((status, out), (2, ""))
            self.assertIn(f"\n  {remedy}", error)
            self.assertFalse(os.path.exists(f"{self.folder}/run.case"))

    def test_nothing_of_the_import_is_left_when_the_search_begins(self):
        left = []

        def judge(*_):
            left.extend(each for each in gc.get_objects() if isinstance(each, (Packet, Endpoint)))
            return LINES.splitlines(), 0

        for act in (self.importing, self.recorded):
            with mock.patch.object(lab, "judge", judge), mock.patch.object(lab, "draw"):
                self.assertEqual(act(*self.lab(LINES))[:2], (0, LINES))
            self.assertEqual(left, [])

    def test_large_files_of_a_recording_are_compressed(self):
        with mock.patch.object(folder, "LARGE", 9):
            status, out, error = self.recorded(*self.lab(LINES))
        self.assertEqual((status, out), (0, LINES))
        self.assertTrue(error.endswith(f"tcpwit-record: all files are in {self.folder}/kept; the large ones are "
                                       "compressed: zcat FILE\n"), error)
        self.assertEqual(sorted(os.listdir(f"{self.folder}/kept")), ["run.case", "run.svg", "run.trace.gz"])
        with gzip.open(f"{self.folder}/kept/run.trace.gz", "rt") as file:
            self.assertEqual(file.read(), self.text("given"))

    def test_a_recording_that_fails(self):
        status, out, error = self.recorded(*self.lab("bad trace 9 12 13 number\n", "exit 2"))
        self.assertEqual((status, out), (2, ""))
        self.assertIn("run.trace: bad trace 9 12 13 number\n  read what tcpwit_lab explain prints", error)
        with mock.patch("os.geteuid", return_value=0):
            self.refused(["--transfer", "5", *self.lab(LINES, known="exit 3")], "has no command judge", recording)
        self.logs = self.logs[:2] + [f"{self.folder}/nothing"]
        self.assertEqual(self.recorded(*self.lab(LINES))[:2], (2, ""))

    def test_a_recording_whose_lines_cannot_be_printed(self):
        full = "standard output: No space left on device\n  choose a place that can be read and written\n"
        for number, said in ((errno.EPIPE, []), (errno.ENOSPC, [full])):
            error = OSError(number, os.strerror(number))
            with self.subTest(error), mock.patch("os.dup2"), \
                    mock.patch("tcpwit_importer.commands.lab.judge_all", side_effect=error):
                status, out, shown = self.recorded(*self.lab(LINES))
                self.assertEqual((status, out), (2, ""))
                self.assertEqual(shown.split("tcpwit-record: ")[2:], [f"all files are in {self.folder}/kept\n", *said])

    def test_what_a_program_prints_is_escaped(self):
        answer = "full no 9 \x1b[2J\x7f\n"
        status, out, error = self.importing(*self.lab(answer, "printf '\\377\\n'; exit 1", below=""))
        self.assertEqual((status, out), (1, "full no 9 \\x1b[2J\\x7f\n\\xff\n"), error)
        words = [*self.captures, *self.logs, "--quiet", "--out", f"{self.folder}/run.trace"]
        self.refused([*words, *self.lab("bad\x1b[2J\n", "printf 'a\\233b\\n' >&2; exit 5")],
                     r"run.trace: bad\x1b[2J; a\x9bb")

    def test_a_file_that_cannot_be_written_is_named(self):
        words = [*self.captures, *self.logs, "--quiet", *self.lab(LINES)]
        self.refused([*words, "--out", "/dev/full"], "/dev/full: No space left on device\n")
        self.refused([*words, "--out", f"{self.folder}/s0.log/run.trace"], "s0.log/run.trace: Not a directory\n")
        os.mkdir(f"{self.folder}/kept")
        os.symlink("/dev/full", f"{self.folder}/kept/run.svg")
        status, out, error = self.recorded(*self.lab(LINES))
        self.assertEqual((status, out), (2, LINES))
        self.assertIn("kept/run.svg: No space left on device\n  choose a place that can be written\n", error)

    def test_a_recording_that_is_not_judged(self):
        self.assertEqual(self.recorded("--no-check", "--lab", "/nowhere")[:2], (0, ""))
        self.assertEqual(sorted(os.listdir(f"{self.folder}/kept")), ["run.trace"])
