"""Checks that the suite finds each defect of the toy stack with the scenario in toy/defects or toy-sack/defects. Needs
TCPWIT, TCPWIT_LAB and a C compiler."""
import concurrent.futures
import os
import re
import subprocess
import sys
import tempfile
import unittest

TOP = os.path.dirname(os.path.dirname(os.path.abspath(__file__)))
# One program, with two profiles.
TOY, SACK = (os.path.join(TOP, name) for name in ("toy", "toy-sack"))


def rows(name="defects", stack=TOY):
    """The lines of a stack's list of defects: a defect, its scenario, and the outcome's line. In `missed`, a reason
    replaces the outcome."""
    with open(os.path.join(stack, name)) as file:
        for line in file:
            if not line.startswith("#"):
                defect, outcome = line.rstrip("\n").split(maxsplit=1)
                yield defect, outcome.partition(":")[0], outcome


# Limits for a busy machine.
SLOW = ("--command-limit", "60", "--scenario-limit", "600")


class Toy(unittest.TestCase):
    @classmethod
    def setUpClass(cls):
        cls.folder = tempfile.TemporaryDirectory()
        cls.addClassCleanup(cls.folder.cleanup)
        subprocess.run([os.path.join(TOY, "build"), cls.folder.name], check=True)

    def run_it(self, scenario, *words, defect="", stack=TOY):
        """Runs the toy stack through a scenario, with a stack's profile."""
        command = [sys.executable, os.path.join(TOP, "run"), os.path.join(self.folder.name, "stack"), "--profile",
                   os.path.join(stack, "profile"), *SLOW, *words, "--",
                   os.path.join(TOP, "scenarios", scenario + ".scenario")]
        return subprocess.run(command, env={**os.environ, "TOY_DEFECT": defect}, capture_output=True, text=True)

    def run_one(self, defect, scenario, outcome, stack=TOY):
        """Runs a scenario with a defect. Returns the output if the outcome differs, else nothing."""
        against = os.path.join(self.folder.name, defect)
        with open(against, "w") as file:
            file.write(outcome + "\n")
        done = self.run_it(scenario, "--against", against, defect=defect, stack=stack)
        return "" if done.returncode == 0 else f"{defect}: status {done.returncode}\n{done.stdout}{done.stderr}"

    def test_each_defect_is_found(self):
        wanted = [(*row, stack) for stack in (TOY, SACK) for row in rows(stack=stack)]
        with concurrent.futures.ThreadPoolExecutor(2) as workers:
            found = list(workers.map(lambda row: self.run_one(*row), wanted))
        self.assertEqual([text for text in found if text], [])

    def test_missed_defects_get_a_yes(self):
        missed = [(*row, stack, word) for stack, word in ((TOY, "yes"), (SACK, "yes at recovery"))
                  for row in rows("missed", stack)]
        for defect, scenario, _, stack, word in missed:
            self.assertEqual(self.run_one(defect, scenario, f"{scenario}: {word}", stack), "")
            traces = []
            for each in ("", defect):
                out = os.path.join(self.folder.name, f"missed-{each}")
                self.run_it(scenario, "--only-trace", "--out", out, defect=each, stack=stack)
                with open(os.path.join(out, scenario + ".trace")) as file:
                    traces.append(file.read())
            self.assertNotEqual(*traces, defect)

    def test_delayed_data_makes_the_timer_expire(self):
        out = os.path.join(self.folder.name, "delayed")
        self.run_it("data-slower-later", "--only-trace", "--out", out)
        with open(os.path.join(out, "data-slower-later.trace")) as file:
            self.assertIn(" T 0 4000 80 rto\n", file.read())
        self.assertIn("thread 3 waits", self.run_it("data-slower-later", defect="no-retransmission").stdout)

    def test_the_slack_of_the_profile_decides(self):
        """With the defect ack-late, an acknowledgment takes 0.6 s; the RFC's limit is 0.5 s."""
        with open(os.path.join(TOY, "profile")) as file:
            usual = file.read()
        for slack, word in (("99999", "no"), ("100000", "yes"), ("any", "yes")):
            path = os.path.join(self.folder.name, "profile")
            with open(path, "w") as file:
                file.write(f"{usual}slack {slack}\n")
            out = self.run_it("hostile-ack-in-time", "--profile", path, defect="ack-late").stdout
            self.assertEqual(re.search("^hostile-ack-in-time +(.*?) +", out, re.M)[1], word, out)
            self.assertEqual(" ack-late " in out, word == "no", out)

    def test_an_outcome_of_a_defect_is_no_plain_yes(self):
        for stack, word in ((TOY, ": yes"), (SACK, ": yes at recovery")):
            self.assertEqual([outcome for _, _, outcome in rows(stack=stack) if outcome.endswith(word)], [])

    def test_each_defect_of_the_stack_has_a_row(self):
        with open(os.path.join(TOY, "stack.c")) as file:
            names = re.search(r"defect_names\[DEFECTS\] = \{(.*?)\}", file.read(), re.DOTALL).group(1)
        lists = [rows(name, stack) for name in ("defects", "missed") for stack in (TOY, SACK)]
        self.assertEqual(sorted(re.findall(r'"([a-z-]+)"', names)),
                         sorted(["none", *(defect for each in lists for defect, _, _ in each)]))

    def test_the_page_has_the_number_of_defects(self):
        with open(os.path.join(TOP, "README.md")) as file:
            page = file.read()
        self.assertIn(f"one of {len(list(rows()))} defects", page)
        self.assertIn(f"{len(list(rows(stack=SACK)))} defects of SACK", " ".join(page.split()))

    def test_an_unknown_defect_ends_the_stack(self):
        done = subprocess.run([os.path.join(self.folder.name, "stack")], input="start 0 1 536 0 \n",
                              capture_output=True, text=True, env={**os.environ, "TOY_DEFECT": "none-such"})
        self.assertEqual((done.returncode, done.stderr), (2, "the toy stack has no defect none-such\n"))
