#!/usr/bin/python3
"""Tests the help and version of both programs, budgets, and tcpwit_lab's messages about input that it can't use."""
import os
import re
import shlex
import subprocess
import sys
import tempfile
import unittest

sys.dont_write_bytecode = True
sys.path.insert(0, os.path.dirname(os.path.abspath(__file__)))
from unproved import kept  # noqa: E402

TOP = os.path.dirname(os.path.dirname(os.path.abspath(__file__)))
TCPWIT = shlex.split(os.environ.get("TCPWIT", f"{TOP}/tcpwit"))
LAB = shlex.split(os.environ.get("TCPWIT_LAB", f"{TOP}/tcpwit_lab"))
# The subcommands of each program.
WORDS = {"tcpwit": (TCPWIT, "check many segment record".split()),
         "tcpwit_lab": (LAB, "find explain show draw judge remark".split())}
DEVICE = 5


def run(program, *words, **ends):
    """Output, standard error and status."""
    if "input" not in ends:
        ends.setdefault("stdin", subprocess.DEVNULL)
    ran = subprocess.run([*program, *words], capture_output="stdout" not in ends, text=True, check=False, timeout=60,
                         **ends)
    return ran.stdout, ran.stderr, ran.returncode


class Help(unittest.TestCase):
    def help_of(self, program, *words):
        """The help text for these arguments; standard error must be empty and the status 0."""
        told, said, status = run(program, *words)
        self.assertEqual((said, status), ("", 0), words)
        return told

    def test_the_whole_program(self):
        for name, (program, subcommands) in WORDS.items():
            text = self.help_of(program, "--help")
            self.assertIn(f"\nUsage: {name} <COMMAND>\n", text)
            for subcommand in subcommands:
                self.assertRegex(text, f"(?m)^  {subcommand} +[A-Z]")
            for status in range(6):
                self.assertRegex(text, f"(?m)^  {status}  [a-z]")
            self.assertEqual([self.help_of(program, word) for word in ("-h", "help")], [text, text])

    def test_each_subcommand(self):
        for name, (program, subcommands) in WORDS.items():
            for subcommand in subcommands:
                text = self.help_of(program, subcommand, "--help")
                self.assertIn(f"\nUsage: {name} {subcommand} ", text)
                self.assertEqual([self.help_of(program, subcommand, "-h"), self.help_of(program, "help", subcommand)],
                                 [text, text])

    def test_no_line_is_wide(self):
        for program, subcommands in WORDS.values():
            for words in (["--help"], *([subcommand, "--help"] for subcommand in subcommands)):
                self.assertLessEqual(max(map(len, self.help_of(program, *words).split("\n"))), 100, words)

    def test_the_order_in_which_pipes_are_filled(self):
        text = self.help_of(TCPWIT, "check", "--help")
        self.assertRegex(text, r"F, the\s+trace, is opened first, then G")

    def test_the_version_is_that_of_the_readme(self):
        with open(f"{TOP}/README.md", encoding="utf-8") as file:
            version = re.match(r"# tcpwit ([0-9.]+)\n", file.read())[1]
        for name, (program, _) in WORDS.items():
            for word in ("--version", "-V"):
                self.assertEqual(self.help_of(program, word), f"{name} {version}\n")

    def test_other_words_are_bad_usage(self):
        for name, (program, subcommands) in WORDS.items():
            strange = WORDS["tcpwit" if name == "tcpwit_lab" else "tcpwit_lab"][1][0]
            rest = (["--help", subcommands[0]], ["--help", "--help"], [subcommands[0], "--help", "-h"],
                    [subcommands[0], "--help", "--help"], ["help", "help"], ["help", "nothing"], ["--Help"], ["-?"],
                    ["nothing", "--help"], [strange, "--help"], ["help", strange], [subcommands[0], "--version"], [""],
                    [])
            for words in rest:
                self.assertEqual(run(program, *words), ("bad usage\n", "", 3), words)

    def test_help_that_cannot_be_written(self):
        for program, _ in WORDS.values():
            with open("/dev/full", "w", encoding="ascii") as full:
                self.assertEqual(run(program, "--help", stdout=full, stderr=subprocess.PIPE), (None, "", DEVICE))


class Files(unittest.TestCase):
    """tcpwit_lab names the file that it can't use, with the system's reason; tcpwit writes nothing to standard
    error."""

    def test_input_that_cannot_be_read(self):
        # The scripts at the top are Python, which refuses a folder as standard input.
        folder = os.open("/", os.O_RDONLY)
        self.addCleanup(os.close, folder)
        for word in WORDS["tcpwit_lab"][1]:
            told, said, status = run([kept("tcpwit_lab")], word, stdin=folder)
            self.assertEqual((told, said, status),
                             ("bad device\n", "standard input: Is a directory (os error 21)\n", DEVICE))
        self.assertEqual(run([kept("tcpwit")], "check", stdin=folder), ("bad device\n", "", DEVICE))

    def test_values_after_an_equals_sign(self):
        with tempfile.TemporaryDirectory() as folder:
            path = f"{TOP}/crates/test_cases/data/judged/half.trace"
            for words in (["--least", "none", "--case", f"{folder}/a"], ["--least=none", f"--case={folder}/b"]):
                with open(path, encoding="ascii") as file:
                    self.assertEqual(run(LAB, "judge", *words, stdin=file)[1:], ("", 0), words)
            self.assertEqual(sorted(os.listdir(folder)), ["a", "b"])

    def test_a_case_that_cannot_be_kept(self):
        with open(f"{TOP}/examples/handshake.case", encoding="ascii") as file:
            trace = file.read().split("witness")[0]
        with tempfile.TemporaryDirectory() as folder, open(f"{folder}/trace", "w+", encoding="ascii") as file:
            file.write(trace)
            file.seek(0)
            told, said, status = run(LAB, "judge", "--case", f"{folder}/missing/case", stdin=file)
            self.assertEqual((told, status), ("bad device\n", DEVICE))
            self.assertEqual(said, f"{folder}/missing/case: No such file or directory (os error 2)\n")

    def test_output_that_cannot_be_written(self):
        name = f"{TOP}/examples/handshake.case"
        with open(name, encoding="ascii") as case, open("/dev/full", "w", encoding="ascii") as full:
            said, status = run(LAB, "show", stdin=case, stdout=full, stderr=subprocess.PIPE)[1:]
            self.assertEqual((said, status), ("standard output: No space left on device (os error 28)\n", DEVICE))

    def test_a_case_instead_of_a_trace(self):
        path = f"{TOP}/examples/handshake.case"
        with open(path, encoding="ascii") as file:
            text = file.read()
        number = text.split("\n").index("witness 1") + 1
        for word in ("judge", "find"):
            told, said, status = run(LAB, word, input=text)
            self.assertEqual((told, status), (f"bad trace {number} 0 7 number\n", 2))
            command = f"sed '/^witness/,$d' FILE | tcpwit_lab {word}"
            self.assertEqual(said,
                             f"this is a case, with a witness from line {number} on. For {word}, pass the trace "
                             f"alone:\n  {command}\n")
            # The command works.
            command = command.replace("FILE", path).replace("tcpwit_lab", shlex.join(LAB))
            told, said, status = run(["sh", "-c", command])
            self.assertEqual((told.split()[:2], said, status),
                             (["full", "yes"] if word == "judge" else ["trace", "1"], "", 0))

    def test_a_trace_with_a_fault(self):
        # Standard error stays empty if the fault isn't a witness, even if one follows.
        with open(f"{TOP}/examples/handshake.case", encoding="ascii") as file:
            text = file.read()
        for word in ("judge", "find"):
            self.assertEqual(run(LAB, word, input=text.replace("trace 1", "trace 9")),
                             ("bad trace 1 0 7 header\n", "", 2))
            self.assertEqual(run(LAB, word, input=text.split("witness")[0] + "end\n")[1:], ("", 2))


class Budgets(unittest.TestCase):
    """In this trace, a reset has to be dropped, which only a search that goes back does."""

    def run_on_trace(self, *words):
        with open(f"{TOP}/crates/test_cases/data/judged/half-reset-dropped.trace", encoding="ascii") as file:
            return run(LAB, *words, input=file.read())

    def test_no_budget(self):
        for words in (["--budget", "0"], ["--budget=0"]):
            told, said, status = self.run_on_trace("judge", *words)
            self.assertEqual((told.split("\n")[0], said, status), ("full      no 14 0 call-answer", "", 1), words)
            said, status = self.run_on_trace("find", *words)[1:]
            self.assertEqual((said, status),
                             ("line 17 of the trace isn't explained, and the budget is spent; other choices tried: 0\n",
                              0), words)

    def test_enough(self):
        for words in ([], ["--budget", "50000"], ["--budget=18446744073709551615"]):
            told, said, status = self.run_on_trace("judge", *words)
            self.assertEqual((told.split("\n")[0], said, status), ("full      yes 9 7", "", 0), words)
            self.assertRegex(self.run_on_trace("find", *words)[1],
                             "^every line is explained; other choices tried: [0-9]+\n$")

    def test_bad_usage(self):
        for word in ("judge", "find"):
            for words in (["--budget"], ["--budget", ""], ["--budget="], ["--budget", "-1"], ["--budget=-1"],
                          ["--budget", "+1"], ["--budget", "00"], ["--budget=01"], ["--budget", "1.5"],
                          ["--budget", "all"], ["--budget", "18446744073709551616"], ["--budget", "1", "1"],
                          ["--budget", "1", "--budget=1"], ["-budget", "1"], ["1"]):
                self.assertEqual(run(LAB, word, *words), ("bad usage\n", "", 3), words)


if __name__ == "__main__":
    unittest.main()
