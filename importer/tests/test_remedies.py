"""Tests that remedies name only options of the command that prints them."""
import ast
import glob
import os
import re
import unittest

from tcpwit_importer import remedies
from tcpwit_importer.commands.tcpwit_import import parser as of_importer
from tcpwit_importer.commands.tcpwit_judge import parser as of_judge
from tcpwit_importer.commands.tcpwit_record import parser as of_recorder

PACKAGE = os.path.dirname(os.path.realpath(remedies.__file__))
OPTION = re.compile(r"(?<![\w-])--[a-z][a-z-]+")
# Options of strace and tcpdump.
OTHERS = {"--absolute-timestamps", "--decode-fds", "--immediate-mode"}
# Only the importer fails like this: the recorder gives it the files itself.
ONLY_IMPORTER = ("an address", "no such host", "is combined with", "no capture is given", "no log of calls",
                 "has a log but no capture", "traces: ", "of another run", "isn't a file that can be read again")
# The modules that only tcpwit-judge and tcpwit-record use.
OF_JUDGE = ("infer/", "capture/index", "commands/live", "commands/output", "commands/tcpwit_judge", "commands/verdicts",
            "commands/workers")
OF_RECORDER = ("recording/", "commands/tcpwit_record")


def text_of(node, names):
    """The text of an expression: its strings and the constants that it names."""
    found = []
    for each in ast.walk(node):
        if isinstance(each, ast.Constant):
            found.append(str(each.value))
        elif isinstance(each, ast.Name):
            found.append(str(names.get(each.id, "")))
    return " ".join(found)


class Remedies(unittest.TestCase):
    def problems(self):
        """Cause, remedy and the recorder's remedy of each error, and its module."""
        for path in glob.glob(f"{PACKAGE}/**/*.py", recursive=True):
            with open(path, encoding="utf-8") as file:
                tree = ast.parse(file.read())
            names = vars(remedies) | {each.targets[0].id: text_of(each.value, {}) for each in tree.body
                                      if isinstance(each, ast.Assign) and isinstance(each.targets[0], ast.Name)}
            for call in ast.walk(tree):
                if isinstance(call, ast.Call) and getattr(call.func, "id", "") == "Problem":
                    yield [text_of(each, names) for each in call.args], os.path.relpath(path, PACKAGE)

    def test_options_exist(self):
        options = {command: OTHERS.union(*(action.option_strings for action in parser()._actions))  # noqa: SLF001
                   for command, parser in (("importer", of_importer), ("recorder", of_recorder), ("judge", of_judge))}
        count = 0
        for (cause, remedy, *recorded), module in self.problems():
            commands = {"recorder": (recorded or [remedy])[0]} if not any(sign in cause
                                                                          for sign in ONLY_IMPORTER) else {}
            commands |= {} if module.startswith(OF_RECORDER) else {"importer": remedy}
            commands = {"judge": remedy} if module.startswith(OF_JUDGE) else commands
            for command, text in commands.items():
                count += 1
                self.assertEqual(set(OPTION.findall(text)) - options[command], set(), f"{command}: {cause}: {text}")
        self.assertGreater(count, 60)


if __name__ == "__main__":
    unittest.main()
