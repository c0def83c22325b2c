#!/usr/bin/python3
"""Tests what tools/docs.py finds in pages."""
import os
import re
import shutil
import subprocess
import sys
import tempfile
import unittest
from unittest import mock

sys.dont_write_bytecode = True
sys.path.insert(0, os.path.dirname(os.path.abspath(__file__)))
import docs  # noqa: E402
import docs_commands  # noqa: E402

# Replaces tcpwit and tcpwit_lab: prints its arguments, and ends with the first one as its status.
PROGRAM = """#!/bin/sh
echo "$@"
exit $1
"""
# The files that the commands read.
READ = ("examples/handshake.case", "crates/test_cases/data/kernel/lost-fin.trace",
        "importer/tests/data/recordings.tar.xz")


class Pages(unittest.TestCase):
    def setUp(self):
        folder = tempfile.TemporaryDirectory()
        self.addCleanup(folder.cleanup)
        self.top = folder.name
        self.write("docs/RULES.md", "# Rules\n\n## 1 What a rule is\n\n**Which word?** This one.\n")
        self.write("tools/one.py", "")

    def write(self, name, text):
        """Writes a file of the tree."""
        path = os.path.join(self.top, name)
        os.makedirs(os.path.dirname(path), exist_ok=True)
        with open(path, "w", encoding="utf-8") as file:
            file.write(text)

    def faults(self, text, page="README.md"):
        """The faults of a page with this text."""
        self.write(page, text)
        return docs.Tree(self.top).faults(page)

    def test_what_exists(self):
        self.assertEqual(self.faults("""# Here

[rules](docs/RULES.md), `RULES.md`, section 1, and section 1 again; [there](docs/RULES.md#1-what-a-rule-is),
[here](#here); `tools/one.py`, `tools/`, `one.py`, `run.case`, `OUT/stack`, `.go`, `/usr/bin/tcpwit`,
`crates/tcpwit/out/tcpwit`; `RULES.md`, "Which word"; <https://example.org/>; RFC 5681, 3.1
"""), [])
        self.assertEqual(self.faults("`../tools/one.py`, [rules](RULES.md)", "docs/MORE.md"), [])

    def test_links(self):
        self.assertEqual(self.faults("a\n[rules](RULES.md)"), ["README.md:2: the link RULES.md leads nowhere"])
        self.assertEqual(self.faults("[rules](docs/RULES.md#2)"), ["README.md:1: docs/RULES.md has no heading #2"])

    def test_files(self):
        for name in ("tools/two.py", "two.py", "./tools/two.py", "tools/two", "TWO.md", "docs/rules/"):
            self.assertEqual(self.faults(f"`{name}`"), [f"README.md:1: there is no file {name}"])

    def test_identifiers(self):
        self.write("crates/one/src/lib.rt", "pub fn check_case() {}\nstruct TextFault;\nmod one;\n")
        self.assertEqual(self.faults("`check_case`, `check_case()`, `one::check_case`, `TextFault`, `tcp_in.c`, "
                                     "`tcp_process`, `word`, `RCV.NXT`"), [])
        for name, missing in (("check_cases", "check_cases"), ("one::check", "check"), ("TextFaults", "TextFaults")):
            self.assertEqual(self.faults(f"`{name}`"), [f"README.md:1: no code has the name {missing}"])

    def test_pages(self):
        for page in ("README.md", "CHANGELOG.md", "docs/start/one.md", "tools/README.md", "tools/soak/README.md",
                     "stacks/LANGUAGE.md", "crates/one/out/README.md"):
            self.write(page, "")
        self.assertEqual(docs.pages_of(self.top),
                         ["README.md", "docs/RULES.md", "docs/start/one.md", "stacks/LANGUAGE.md", "tools/README.md",
                          "tools/soak/README.md"])

    def test_sections(self):
        self.assertEqual(self.faults("`RULES.md`,\nsection 2"), ["README.md:1: RULES.md has no section 2"])
        self.assertEqual(self.faults("[r](docs/RULES.md), section 3"), ["README.md:1: docs/RULES.md has no section 3"])
        self.assertEqual(self.faults("`RULES.md`, section 1, or section 4"), ["README.md:1: RULES.md has no section 4"])
        self.assertEqual(self.faults("## 1 One\n\nsection 2, not 1"), ["README.md:3: README.md has no section 2"])
        self.assertEqual(self.faults('`RULES.md`, "What no rule is"'),
                         ["README.md:1: RULES.md has no section What no rule is"])

    def test_the_page_that_an_example_fetches(self):
        self.assertEqual(self.faults("curl http://10.9.0.2/page"),
                         ["README.md:1: the server of the example has no page page"])
        self.assertEqual(self.faults("curl http://10.9.0.2/, http://10.9.0.2/README.md"), [])


# Lines of `judge` about the recording, the case and the slack, which don't say what a level means.
OTHER = re.compile(r"Only host 0 |The search added |The case has |No connection |No duty was late|\d+ of \d+ "
                   r"connections ")


class Yes(unittest.TestCase):
    """What a yes says at each level is in formats.md, and `judge` prints these sentences."""

    def levels(self):
        """The item of each level, by the level."""
        text = docs.text_of(f"{docs.TOP}/docs/reference/formats.md").split("\n## 5 Levels\n")[1].split("\n## ")[0]
        items = re.findall(r"^- (`\w+`: .*\n(?:  .*\n)*)", text, re.M)
        return {re.match(r"`(\w+)`", item)[1]: " ".join(item.split()) for item in items}

    def answers(self):
        """The word with a yes, and the lines after it that tell what that means, for each such answer of `judge`."""
        for block in docs.text_of(f"{docs.TOP}/crates/test_cases/data/judged.txt").split("== "):
            if found := re.search(r"^(\w+) +yes .*\n((?:(?!Under ).+\n)+)", block, re.M):
                yield found[1], found[2].splitlines()

    def test_judge_prints_the_sentences_of_the_levels(self):
        levels = self.levels()
        answers = list(self.answers())
        self.assertEqual({word for word, _ in answers}, {"full", "recovery", "none"})
        for word, lines in answers:
            self.assertLessEqual(max(map(len, lines)), 100)
            self.assertEqual(f"`{word}`: " + " ".join(line for line in lines if not OTHER.match(line)), levels[word])


class Commands(unittest.TestCase):
    def setUp(self):
        folder = tempfile.TemporaryDirectory()
        self.addCleanup(folder.cleanup)
        self.top = f"{folder.name}/top"
        for name in READ:
            os.makedirs(os.path.dirname(f"{self.top}/{name}"), exist_ok=True)
            shutil.copy(f"{docs.TOP}/{name}", f"{self.top}/{name}")
        with open(f"{folder.name}/program", "w", encoding="ascii") as file:
            file.write(PROGRAM)
        for target, value in (("kept", lambda name: f"{folder.name}/program"), ("LEFT_OUT", {"sudo ": "root"}),
                              ("SHOWN", ("a text",))):
            patch = mock.patch.object(docs_commands, target, value)
            patch.start()
            self.addCleanup(patch.stop)

    def faults(self, *lines):
        """The faults of a page with these lines and a command that is left out, and how many commands are run."""
        return docs_commands.faults({"README.md": "\n".join([*lines, "", "and", "", "    sudo true", ""])}, self.top)

    def test_what_works(self):
        self.assertEqual(self.faults("a", "", "    tcpwit 0 a        says a", "    tcpwit 0 \\", "      b", "",
                                     "    0 a", "    0 b", "", "b `tcpwit 0 c`"), ([], 2))
        self.assertEqual(self.faults("    tcpwit 1 a", "", "    1 a"), ([], 1))
        self.assertEqual(self.faults("    cat CASE DIR/run.trace c0.pcap F > DIR/new", "", "a", "", "    a text", "",
                                     "`tcpwit 1 ..`, `tcpwit check`"), ([], 1))
        self.assertEqual(self.faults("    tcpwit 0 yes", "    tcpwit 0 b; tcpwit 0 c", "", "    0 yes", "    ..",
                                     "    0 c"), ([], 1))
        self.assertEqual(self.faults("    sudo true", "    tcpwit 0 a", "", "    not compared"), ([], 1))

    def test_other_lines(self):
        wanted = ["README.md:2: prints other lines than the page shows:", "README.md:2:     0 a"]
        self.assertEqual(self.faults("", "    tcpwit 0 a", "", "    0 b"), (wanted, 1))
        self.assertEqual(self.faults("", "    tcpwit 0 a", "", "then", "", "    yes 1 1"), (wanted, 1))
        self.assertEqual(self.faults("", "    tcpwit 0 a", "", "    0 a", "    0 b"), (wanted, 1))

    def test_a_command_that_fails(self):
        self.assertEqual(self.faults("    tcpwit 0 a", "    tcpwit 1 b", "    tcpwit 0 c")[0][0],
                         "README.md:1: `tcpwit 1 b` ended with status 1")
        self.assertEqual(self.faults("a `tcpwit 3 b`")[0][0], "README.md:1: `tcpwit 3 b` ended with status 3")
        self.assertIn("ended with status 1", self.faults("    cat no-such-file")[0][0])

    def test_a_command_that_hangs(self):
        with mock.patch.object(docs_commands, "LIMIT", 0.2):
            self.assertEqual(self.faults("    sed p /dev/stdin | cat; mkfifo A; cat A")[0][0],
                             "README.md:1: `sed p /dev/stdin | cat; mkfifo A; cat A` ended with status 124")

    def test_pictures(self):
        os.makedirs(f"{self.top}/docs", exist_ok=True)
        for name, content in (("same", "0 <svg/>\n"), ("other", "<svg/>\n"), ("lost", "<svg/>\n")):
            with open(f"{self.top}/docs/{name}.svg", "w", encoding="utf-8") as file:
                file.write(content)
        lines = ["    tcpwit 0 '<svg/>' > same.svg; tcpwit 0 '<svg/>' > other.svg", "",
                 *(f"![it](docs/{name}.svg)" for name in ("same", "other", "lost"))]
        self.assertEqual(self.faults(*lines)[0], [
            "README.md:4: docs/other.svg isn't what the page's command draws: run that command, and keep its file",
            "README.md:5: no command of this page writes lost.svg"])

    def test_what_the_tables_do_not_have(self):
        self.assertEqual(self.faults("    apt-get update")[0],
                         ["README.md:1: neither a command nor what one prints: see COMMAND and SHOWN"])
        with mock.patch.object(docs_commands, "LEFT_OUT", {"sudo ": "root", "man ": "a package"}):
            self.assertEqual(self.faults("a")[0], ["LEFT_OUT: no page has a command that begins with 'man '"])


class Facts(unittest.TestCase):
    """What pages say of other files and of the toolchain."""

    def page(self, name):
        with open(f"{docs.TOP}/{name}", encoding="utf-8") as file:
            return file.read()

    @unittest.skipIf(shutil.which("rt") is None, "rt isn't in PATH")
    def test_pages_name_the_toolchain(self):
        version = subprocess.run(["rt", "version"], stdout=subprocess.PIPE, text=True, check=True).stdout.strip()
        self.assertEqual(re.findall(r"rattle-kit-\w+", self.page("docs/guarantees.md")), [version.split()[0]])
        self.assertEqual(re.findall(r"rattle-kit-.*", self.page("packaging/README.md")), [version])

    def test_contributing_lists_the_suites(self):
        refused = subprocess.run([f"{docs.TOP}/test", "nosuch"], stderr=subprocess.PIPE, text=True)
        self.assertEqual(refused.returncode, 2)
        suites = re.search(r"the suites are ([\w ]+), and edits bodies quick and cases$", refused.stderr)[1]
        row = re.search(r"^\| `\./test NAME \.\.` \| (.*) \|$", self.page("CONTRIBUTING.md"), re.M)[1]
        self.assertEqual(re.findall(r"`(\w+)`", row), suites.split())


if __name__ == "__main__":
    unittest.main()
