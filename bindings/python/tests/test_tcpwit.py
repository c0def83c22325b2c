#!/usr/bin/python3
"""Tests the Python package with the library for C, which is built without proofs first, unless a current one is in
.built/.

    bindings/python/tests/test_tcpwit.py [LIBRARY]

LIBRARY is the folder of the built library.
"""
import concurrent.futures
import doctest
import os
import re
import shutil
import subprocess
import sys
import tempfile
import unittest

HERE = os.path.dirname(os.path.abspath(__file__))
PACKAGE = os.path.dirname(HERE)
TOP = os.path.dirname(os.path.dirname(PACKAGE))
CASES = f"{TOP}/crates/test_cases/data"
sys.dont_write_bytecode = True
sys.path[:0] = [PACKAGE, f"{TOP}/bindings/c/test"]
import test_c  # noqa: E402

LIBRARY = test_c.given_library()
os.environ["TCPWIT_LIBRARY"] = f"{LIBRARY}/libtcpwit.so.1"
import tcpwit  # noqa: E402

REFUSED = f"{TOP}/stacks/recorded/lwip-hostile-ack-despite-nagle.case"


def contents(path):
    """The bytes of a file."""
    with open(path, "rb") as file:
        return file.read()


def trace_of(case):
    """The trace in a case."""
    return case[: re.search(rb"^witness ", case, re.MULTILINE).start()]


def said(case):
    """The line of a case's answer."""
    try:
        return str(tcpwit.check(case))
    except tcpwit.TextError as error:
        return str(error)


class Package(unittest.TestCase):
    def test_examples_in_the_code_work(self):
        for module in (tcpwit, tcpwit.answers, tcpwit.trace):
            done = doctest.testmod(module)
            self.assertGreater(done.attempted, 0)
            self.assertEqual(done.failed, 0)

    def test_each_case_has_its_line(self):
        for name, line in test_c.expected().items():
            self.assertEqual(said(contents(test_c.case(name))), line, name)

    def test_threads_agree(self):
        names = list(test_c.expected())[::20]
        cases = [contents(test_c.case(name)) for name in names] * 8
        with concurrent.futures.ThreadPoolExecutor(8) as pool:
            self.assertEqual(list(pool.map(said, cases)), [test_c.expected()[name] for name in names] * 8)

    def test_rules_and_faults_have_the_names_of_the_library(self):
        import ctypes
        for rule in tcpwit.Rule:
            name = ctypes.create_string_buffer(32)
            tcpwit.library.LIBRARY.tcpwit_rule_name(rule.number, name, 32)
            self.assertEqual(rule.value, name.value.decode())
        with open(f"{TOP}/bindings/c/tcpwit.h", encoding="utf-8") as file:
            numbers = re.findall(r"TCPWIT_FAULT_(\w+) = (\d+)", file.read())
        self.assertEqual({int(number): name for name, number in numbers},
                         {number: fault.name for number, fault in tcpwit._FAULTS.items()})

    def test_texts_may_be_str_or_bytes_or_two(self):
        case = contents(f"{TOP}/examples/handshake.case")
        self.assertEqual(tcpwit.check(case), tcpwit.Yes(18, 13))
        self.assertEqual(tcpwit.check(case.decode()), tcpwit.Yes(18, 13))
        trace = trace_of(case)
        self.assertEqual(tcpwit.check_two(trace, case[len(trace):]), tcpwit.Yes(18, 13))
        with self.assertRaises(tcpwit.WitnessError):
            tcpwit.check_two(trace, "")

    def test_the_lab_says_what_it_says_in_c(self):
        case = contents(REFUSED)
        judgement = tcpwit.judge(trace_of(case))
        self.assertFalse(judgement)
        self.assertEqual(str(judgement).splitlines()[0], "full      no 25 25 ack-late")
        self.assertTrue(tcpwit.judge(trace_of(case), slack=tcpwit.ANY_SLACK))
        self.assertTrue(tcpwit.explain(case, simulated=True).startswith("no 25 25 ack-late\nthe step: "))
        self.assertEqual(tcpwit.remark(f"{contents(f'{TOP}/stacks/recorded/gvisor-data-lost-alone.case').decode()}"),
                         ["line 30: host 1's endpoint 80 -> 4000 drops an acceptable FIN (position 301)"])
        found = tcpwit.find(trace_of(contents(f"{TOP}/examples/handshake.case")))
        self.assertEqual(tcpwit.check(found).lines, 18)

    def test_a_witness_for_a_segment_with_a_port_0_can_be_read(self):
        for name in ("port-0-source", "port-0-destination"):
            trace = contents(f"{TOP}/crates/test_cases/data/judged/{name}.trace")
            self.assertEqual(str(tcpwit.check(tcpwit.find(trace))), "no 2 11 not-made")
            self.assertEqual(str(tcpwit.judge(trace)).splitlines()[0], "full      no 2 11 not-made")

    def test_a_trace_that_cannot_be_read_is_refused_everywhere(self):
        for call in (tcpwit.check, tcpwit.find, tcpwit.judge, tcpwit.remark):
            with self.assertRaises(tcpwit.TraceError) as caught:
                call("trace 1\n")
            self.assertEqual((caught.exception.fault, caught.exception.line), (tcpwit.Fault.HEADER, 2))
        with self.assertRaises(ValueError):
            tcpwit.judge(trace_of(contents(REFUSED)), slack=10**18 + 1)

    def test_a_trace_is_written_and_judged(self):
        trace = tcpwit.Trace(slack=None)
        syn = bytes.fromhex("0fa00050fffffffe000000005002ffff00000000")
        with trace.listen(10, 1, 1, 80, 4) as call:
            call.number(5)
        with trace.open(20, 2, 0, 4000, 80) as call:
            call.number(6, moment=21)
        trace.out(30, 3, 0, syn)
        trace.came(40, 4, 1, syn)
        trace.finish(50)
        judgement = tcpwit.judge(trace)
        self.assertTrue(judgement, judgement.text)
        self.assertEqual(tcpwit.check(judgement.case).lines, 8)

    def test_a_trace_below_full_has_version_6(self):
        for level, chosen, version in (("full", None, 5), ("recovery", None, 6), ("none", None, 6), ("none", 5, 5),
                                       ("recovery", 6, 6)):
            trace = tcpwit.Trace(congestion=level, version=chosen)
            trace.finish(50)
            lines = trace.text().decode().splitlines()
            rest = [f"congestion {level}", "slack 1000000", *["sender cubic", "growth any"] * (version == 6)]
            self.assertEqual((lines[0], lines[8:-2]), (f"trace {version}", rest))
            self.assertTrue(tcpwit.judge(trace, tcpwit.Level(level)))

    def test_the_page_shows_a_program_that_works(self):
        with open(f"{TOP}/docs/how-to/embedding.md", encoding="utf-8") as file:
            code = re.search(r"^    import tcpwit\n(?:(?:    .*)?\n)*", file.read(), re.MULTILINE)[0]
        with tempfile.TemporaryDirectory() as folder:
            with open(f"{folder}/test_trace.py", "w", encoding="utf-8") as file:
                file.write(re.sub(r"^    ", "", code, flags=re.MULTILINE))
            shutil.copy(f"{TOP}/crates/test_cases/data/kernel/lost-fin.trace", f"{folder}/run.trace")
            environment = {**os.environ, "PYTHONPATH": PACKAGE}
            words = ["/usr/bin/python3", "-m", "pytest", "-q", "-p", "tcpwit.pytest_plugin", "-p", "no:cacheprovider",
                     "test_trace.py"]
            done = subprocess.run(words, cwd=folder, env=environment, stdout=subprocess.PIPE, stderr=subprocess.STDOUT,
                                  text=True, check=False)
            self.assertRegex(done.stdout, r"\b1 passed\b")
            with open(f"{folder}/run.trace", "wb") as file:
                file.write(trace_of(contents(REFUSED)))
            done = subprocess.run(words, cwd=folder, env=environment, stdout=subprocess.PIPE, stderr=subprocess.STDOUT,
                                  text=True, check=False)
            self.assertRegex(done.stdout, r"\b1 failed\b")
            self.assertIn("none      no 25 25 ack-late", done.stdout)
            self.assertIn("the step: 2760000 L 25 ", done.stdout)

    def test_a_wheel_has_the_library(self):
        with tempfile.TemporaryDirectory() as folder:
            shutil.copytree(PACKAGE, f"{folder}/python",
                            ignore=shutil.ignore_patterns("__pycache__", "tests", "build", "*.egg-info"))
            shutil.copy(f"{LIBRARY}/libtcpwit.so.1", f"{folder}/python/tcpwit")
            words = ["/usr/bin/python3", "-m", "pip", "wheel", "--quiet", "--no-deps", "--no-build-isolation",
                     "--wheel-dir", folder, f"{folder}/python"]
            subprocess.run(words, check=True, stdout=subprocess.DEVNULL, stderr=subprocess.DEVNULL)
            wheel = f"{folder}/tcpwit-1.0-py3-none-linux_x86_64.whl"
            words = ["/usr/bin/python3", "-m", "pip", "install", "--quiet", "--no-deps", "--no-index", "--target",
                     f"{folder}/installed", wheel]
            subprocess.run(words, check=True, stdout=subprocess.DEVNULL, stderr=subprocess.DEVNULL)
            environment = {"PATH": os.environ["PATH"], "PYTHONPATH": f"{folder}/installed"}
            words = ["/usr/bin/python3", "-c", "import sys, tcpwit; print(tcpwit.check(sys.stdin.read()))"]
            done = subprocess.run(words, input=contents(f"{TOP}/examples/handshake.case"), env=environment, cwd=folder,
                                  stdout=subprocess.PIPE, check=True)
            self.assertEqual(done.stdout, b"yes 18 13\n")


if __name__ == "__main__":
    unittest.main()
