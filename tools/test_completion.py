#!/usr/bin/python3
"""Tests what bash completes with packaging/completion/tcpwit."""
import os
import subprocess
import tempfile
import unittest

TOP = os.path.dirname(os.path.dirname(os.path.abspath(__file__)))
# The typed words, in an array as bash passes them, the last one being completed; prints its completions.
SCRIPT = """source "$1" || exit
file=$2 bound=$(complete -p "$3") || exit
shift 2
COMP_WORDS=("$@") COMP_CWORD=$(($# - 1))
[[ $bound =~ -F\\ ([^ ]+) ]] && "${BASH_REMATCH[1]}" "$file" "${COMP_WORDS[COMP_CWORD]}" "${COMP_WORDS[COMP_CWORD-1]}"
printf '%s\\n' "${COMPREPLY[@]}"
"""
GENERAL = ["help", "--help", "-h", "--version", "-V"]
LEVELS = ["full", "recovery", "none"]
# The file of each command that is a script.
COMMANDS = {
    "tcpwit-record": "importer/tcpwit-record",
    "tcpwit-judge": "importer/tcpwit-judge",
    "tcpwit-import": "importer/tcpwit-import",
    "tcpwit-stacks": "stacks/run",
    "tcpwit-junit": "packaging/lines/tcpwit-junit",
    "tcpwit-parts": "packaging/lines/tcpwit-parts",
    "tcpwit-status": "packaging/lines/tcpwit-status",
}


class Completion(unittest.TestCase):
    def setUp(self):
        folder = tempfile.TemporaryDirectory()
        self.addCleanup(folder.cleanup)
        self.folder = folder.name
        for name in ("one.case", "two.trace"):
            with open(f"{self.folder}/{name}", "w", encoding="ascii"):
                pass

    def completed(self, *words):
        """The completions of the last of these words."""
        command = os.path.join(TOP, COMMANDS.get(words[0], words[0]))
        shell = ["bash", "--norc", "-c", SCRIPT, "bash", f"{TOP}/packaging/completion/tcpwit", command, *words]
        done = subprocess.run(shell, cwd=self.folder, capture_output=True, text=True, check=True)
        self.assertEqual(done.stderr, "")
        return done.stdout.split()

    def test_first_words(self):
        self.assertEqual(self.completed("tcpwit", ""), ["check", "many", "segment", "record", *GENERAL])
        self.assertEqual(self.completed("tcpwit_lab", ""),
                         ["find", "explain", "show", "draw", "judge", "remark", *GENERAL])
        for name in ("tcpwit", "tcpwit_lab"):
            self.assertEqual(self.completed(name, "--"), ["--help", "--version"])
            self.assertEqual(self.completed(name, "he"), ["help"])
            for word in GENERAL:
                self.assertEqual(self.completed(name, word, ""), [])

    def test_options_of_tcpwit(self):
        self.assertEqual(self.completed("tcpwit", "check", ""), ["--trace", "--witness", "--help"])
        self.assertEqual(self.completed("tcpwit", "check", "--trace", "a", ""), ["--trace", "--witness"])
        self.assertEqual(self.completed("tcpwit", "many", ""), ["--workers", "--help"])
        self.assertEqual(self.completed("tcpwit", "segment", ""), ["--help"])
        self.assertEqual(self.completed("tcpwit", "segment", "0fa0", ""), [])
        self.assertEqual(self.completed("tcpwit", "record", "--"), ["--rounds", "--lose", "--format", "--help"])
        self.assertEqual(self.completed("tcpwit", "record", "--rounds", "20", "--l"), ["--lose"])

    def test_options_of_tcpwit_lab(self):
        self.assertEqual(self.completed("tcpwit_lab", "show", ""), ["--help"])
        self.assertEqual(self.completed("tcpwit_lab", "remark", ""), ["--json", "--help"])
        self.assertEqual(self.completed("tcpwit_lab", "remark", "--json", ""), [])
        self.assertEqual(self.completed("tcpwit_lab", "find", ""),
                         ["--budget", "--ways", "--expiries", "--help"])
        self.assertEqual(self.completed("tcpwit_lab", "find", "--budget", ""), [])
        self.assertEqual(self.completed("tcpwit_lab", "explain", ""), ["--simulated", "--json", "--help"])
        self.assertEqual(self.completed("tcpwit_lab", "explain", "--simulated", "--j"), ["--json"])
        self.assertEqual(self.completed("tcpwit_lab", "draw", ""), ["--from", "--to", "--help"])
        self.assertEqual(self.completed("tcpwit_lab", "draw", "--from", "1", ""), ["--from", "--to"])
        self.assertEqual(self.completed("tcpwit_lab", "judge", ""),
                         ["--least", "--from", "--slack", "--budget", "--ways", "--expiries", "--case", "--json",
                          "--many", "--help"])
        self.assertEqual(self.completed("tcpwit_lab", "judge", "--budget", ""), [])
        self.assertEqual(self.completed("tcpwit_lab", "judge", "--budget", "0", "--b"), ["--budget"])

    def test_values(self):
        for option in ("--least", "--from"):
            self.assertEqual(self.completed("tcpwit_lab", "judge", option, ""), LEVELS)
        self.assertEqual(self.completed("tcpwit_lab", "judge", "--slack", ""), ["any"])
        for command in ("find", "judge"):
            self.assertEqual(self.completed("tcpwit_lab", command, "--ways", ""), [])
            self.assertEqual(self.completed("tcpwit_lab", command, "--expiries", ""), ["0", "1", "0,1"])
        self.assertEqual(self.completed("tcpwit", "record", "--format", ""), ["1", "2"])
        for words in (["tcpwit", "many", "--workers"], ["tcpwit", "record", "--rounds"], ["tcpwit", "record", "--lose"],
                      ["tcpwit_lab", "draw", "--from"], ["tcpwit_lab", "draw", "--to"]):
            self.assertEqual(self.completed(*words, ""), [])

    def test_the_manual_has_the_same_words(self):
        for name in ("tcpwit", "tcpwit_lab"):
            with open(f"{TOP}/packaging/man/{name}.1", encoding="utf-8") as file:
                page = file.read().replace("\\-", "-")
            for word in self.completed(name, ""):
                for found in [word, *self.completed(name, word, "")]:
                    self.assertRegex(page, rf"(?<![\w-]){found}(?![\w-])")

    def test_files(self):
        for words in (["tcpwit", "check", "--trace"], ["tcpwit", "check", "--trace", "F", "--witness"],
                      ["tcpwit_lab", "judge", "--case"]):
            self.assertEqual(sorted(self.completed(*words, "")), ["one.case", "two.trace"])
            self.assertEqual(self.completed(*words, "o"), ["one.case"])

    def test_options_of_the_scripts(self):
        self.assertEqual(self.completed("tcpwit-record", "--k"), ["--kernel"])
        for name in COMMANDS:
            self.assertEqual(self.completed(name, "--he"), ["--help"])
        self.assertEqual(self.completed("tcpwit-junit", "o"), ["one.case"])

    def test_values_of_the_scripts(self):
        self.assertEqual(self.completed("tcpwit-record", "--kernel", ""), ["plain", "shipped"])
        for words in (["tcpwit-record", "--congestion"], ["tcpwit-import", "--congestion"],
                      ["tcpwit-stacks", "lwip", "--least"]):
            self.assertEqual(self.completed(*words, ""), LEVELS)
            self.assertEqual(self.completed(*words, "r"), ["recovery"])
        for name in ("tcpwit-record", "tcpwit-import"):
            self.assertEqual(self.completed(name, "--version", ""), list("123456"))
        self.assertEqual(self.completed("tcpwit-judge", "--version", ""), ["5", "6"])
        self.assertEqual(self.completed("tcpwit-import", "--each", ""), ["pair", "connection"])
        self.assertEqual(sorted(self.completed("tcpwit-import", "--out", "")), ["one.case", "two.trace"])


if __name__ == "__main__":
    unittest.main()
