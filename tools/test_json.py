#!/usr/bin/python3
"""Tests `tcpwit_lab explain`, `judge` and `remark` with `--json`: the objects have the members that
docs/reference/tcpwit_lab.schema.json permits, and say the same as the lines without `--json`."""
import json
import os
import re
import shlex
import subprocess
import sys
import tempfile
import unittest

import jsonschema

sys.dont_write_bytecode = True
TOP = os.path.dirname(os.path.dirname(os.path.abspath(__file__)))
DATA = f"{TOP}/crates/test_cases/data"
LAB = shlex.split(os.environ.get("TCPWIT_LAB", f"{TOP}/tcpwit_lab"))
LEVELS = ("full", "recovery", "none")
sys.path[:0] = [f"{TOP}/tools", f"{TOP}/tools/refused_memory"]

from sweep import built_library  # noqa: E402
from unproved import kept  # noqa: E402


def run(words, text, **options):
    """The output and the status."""
    ran = subprocess.run([*LAB, *words], input=text, stdout=subprocess.PIPE, stderr=subprocess.DEVNULL, check=False,
                         timeout=60, **options)
    return ran.stdout.decode(), ran.returncode


def content(path):
    with open(path, "rb") as file:
        return file.read()


def traces(folder):
    """The names of the traces in a folder of the data."""
    return sorted(f"{folder}/{name}" for name in os.listdir(f"{DATA}/{folder}") if name.endswith(".trace"))


def is_event(line):
    """Whether a line of a trace isn't one of its header."""
    return line[:1].isdigit()


def line_of(found):
    """The line of `tcpwit check` for the outcome in an object."""
    if found["answer"] == "yes":
        return f"yes {found['lines']} {found['hidden']}"
    if found["answer"] == "no":
        return f"no {found['witness_line']} {found['trace_line']} {found['rule']}"
    fault = found["fault"]
    return f"{found['answer']} {fault['line']} {fault['start']} {fault['stop']} {fault['kind']}"


def refusals(said):
    """Each level that the lines of `judge` name as refused, with its sentence, in their order."""
    found = [re.fullmatch("Under ([a-z, ]+): (.*)", line) for line in said if ", without duties: " not in line]
    return [(level, line[2]) for line in found if line for level in re.split(", | and ", line[1])]


class Json(unittest.TestCase):
    @classmethod
    def setUpClass(cls):
        with open(f"{TOP}/docs/reference/tcpwit_lab.schema.json", encoding="utf-8") as file:
            schema = json.load(file)
        jsonschema.Draft202012Validator.check_schema(schema)
        cls.kinds = {name: jsonschema.Draft202012Validator({**schema, "oneOf": [{"$ref": f"#/$defs/{name}"}]})
                     for name in ("explained", "judged", "remarked", "refused")}

    def object(self, kind, words, text, **options):
        """The object for these words; it has the members of its kind or, with a status above 1, of a refusal, and of no
        other kind."""
        line, status = run([*words, "--json"], text, **options)
        self.assertEqual((line.count("\n"), line[-1:]), (1, "\n"))
        found = json.loads(line)
        kind = kind if status < 2 else "refused"
        self.assertEqual([name for name, form in self.kinds.items() if form.is_valid(found)], [kind], line)
        self.assertEqual(found["status"], status)
        plain = run(words, text, **options)
        self.assertEqual(("".join(f"{said}\n" for said in found["said"]), status), plain)
        return found

    def test_cases(self):
        with open(f"{DATA}/expected.txt", encoding="utf-8") as file:
            rows = [row.rstrip("\n").split("\t") for row in file]
        for name, answer in rows[::9] + [row for row in rows if row[0].startswith("examples/")]:
            text = content(f"{DATA}/{name}.case")
            with self.subTest(name):
                self.assertEqual(line_of(self.object("explained", ["explain"], text)), answer)
                found = self.object("remarked", ["remark"], text)
                self.assertEqual(line_of(found), answer)
                self.assertEqual([remark["text"] for remark in found.get("remarks", [])],
                                 found["said"] if found["status"] < 2 else [])

    def test_remarks_have_their_lines(self):
        with open(f"{DATA}/remarked.txt", encoding="utf-8") as file:
            names = [block.split(" ")[1] for block in file.read().split("== ")[1:]]
        seen = set()
        for name in names:
            for remark in self.object("remarked", ["remark"], content(f"{DATA}/{name}.case")).get("remarks", []):
                first, last = remark.get("first"), remark.get("last")
                place = f"line {first}" if first == last else f"lines {first} to {last}"
                place = "at the end" if first is None else place
                self.assertTrue(remark["text"].startswith(f"{place}: "), remark)
                seen.add(place.split(" ", maxsplit=1)[0])
        self.assertEqual(seen, {"line", "lines", "at"})

    def test_traces(self):
        for name in traces("kernel"):
            text = content(f"{DATA}/{name}")
            for words in ([], ["--slack", "any"], ["--slack", "0", "--budget", "0"]):
                with self.subTest(f"{name} {words}"):
                    self.judged(["judge", *words], text, words[:2] == ["--slack", "any"])

    def judged(self, words, text, is_without_duties):
        found = self.object("judged", words, text)
        rows = [line for line in found["said"] if line.split(" ", 1)[0] in LEVELS]
        self.assertEqual([f"{level['level']:<10}{line_of(level)}" for level in found["levels"]], rows)
        last = found["levels"][-1]
        self.assertEqual((found["level"], line_of(found)), (last["level"], line_of(last)))
        self.assertEqual("slack" in found, not is_without_duties)
        self.assertEqual("connections" in found, found["answer"] == "yes")
        for level in found["levels"]:
            if "without_duties" in level:
                self.assertIn(f"Under {level['level']}, without duties: {line_of(level['without_duties'])}",
                              found["said"])
        self.assertEqual(refusals(found["said"]),
                         [(level["level"], level["sentence"]) for level in found["levels"] if "sentence" in level])

    def test_the_refused_line_as_it_was_given(self):
        seen = set()
        for name in traces("judged") + traces("kernel"):
            text = content(f"{DATA}/{name}")
            with tempfile.TemporaryDirectory() as folder:
                levels = self.object("judged", ["judge", "--case", "run.case"], text, cwd=folder).get("levels", [])
                lines = content(f"{folder}/run.case").split(b"witness ")[0].splitlines() if levels else []
            header = [line for line in lines if not is_event(line)]
            for level in levels:
                with self.subTest(f"{name} {level['level']}"):
                    seen.add(self.refused_line(level, header, text.splitlines()))
        self.assertEqual(seen, {"yes", "no line", "after an added line", "after no added line"})

    def refused_line(self, level, header, given):
        """Compares the refused line of a level with that of the case that `find` gives for this header in version 5.
        Returns where it is."""
        line = re.match(r"line (\d+)", level.get("sentence", ""))
        if line is None:
            self.assertNotIn("input_line", level)
            return "yes" if level["answer"] == "yes" else "no line"
        judged = b"congestion " + level["level"].encode()
        header = [judged if line.startswith(b"congestion ") else line for line in header]
        events = [line for line in given if is_event(line)]
        case = run(["find"], b"".join(line + b"\n" for line in header + events))[0].encode()
        before = case.split(b"witness ")[0].splitlines()[len(header):int(line[1])]
        self.assertEqual(given[level["input_line"] - 1], before[-1])
        added = len(before) - (level["input_line"] - (len(given) - len(events)))
        self.assertEqual(added, sum(line not in events for line in before))
        return "after an added line" if added else "after no added line"

    def test_a_case_that_is_written(self):
        text = content(f"{DATA}/kernel/lost-fin.trace")
        with tempfile.TemporaryDirectory() as folder:
            found = self.object("judged", ["judge", "--case", "run.case"], text, cwd=folder)
            self.assertEqual(found["said"][-1], f"The case has all {found['kept']} event lines of the trace, in order.")
            self.assertEqual((found["added"], found["hosts"], found["connections"]),
                             (1, 2, {"begun": 1, "established": 1}))
            self.assertEqual(os.listdir(folder), ["run.case"])
            self.assertEqual(self.object("judged", ["judge", "--case", "none/run.case"], text, cwd=folder)["answer"],
                             "bad device")

    def test_a_text_that_cannot_be_read(self):
        with open("/proc/self/mem", "rb") as unreadable:
            ran = subprocess.run([*LAB, "judge", "--json"], stdin=unreadable, capture_output=True, check=False,
                                 timeout=60)
        self.assertEqual((json.loads(ran.stdout), ran.returncode),
                         ({"status": 5, "answer": "bad device", "said": ["bad device"]}, 5))

    def test_one_host(self):
        trace = content(f"{TOP}/examples/one_host_recorded.case").split(b"witness ")[0]
        self.assertEqual(self.object("judged", ["judge"], trace)["hosts"], 1)

    def test_refused_memory(self):
        """An answer is an object, even if there is no memory for the words that ask for one."""
        text = content(f"{TOP}/examples/handshake.case")
        program = kept("tcpwit_lab") if LAB == [f"{TOP}/tcpwit_lab"] else LAB[0]
        refused = {"status": 4, "answer": "bad memory", "said": ["bad memory"]}
        with tempfile.TemporaryDirectory() as folder:
            library = built_library(folder)
            for words, given in ((["explain", "--simulated"], text),
                                 (["judge", "--slack", "0"], text.split(b"witness ")[0]), (["remark"], text)):
                right = run([*words, "--json"], given)
                for refusal in ({"REFUSE_AT": "1"}, {"REFUSE_FROM": "1"},
                                *({kind: str(n)} for n in range(2, 40) for kind in ("REFUSE_AT", "REFUSE_FROM"))):
                    surroundings = {"LD_PRELOAD": library, **refusal}
                    lines = [subprocess.run([program, *asked], input=given, capture_output=True, env=surroundings,
                                            check=False, timeout=60)
                             for asked in ([words[0], "--json", *words[1:]], [*words, "--json"], words)]
                    for answer in lines[:2]:
                        self.assertTrue((answer.stdout.decode(), answer.returncode) == right
                                        or json.loads(answer.stdout) == refused, (words, refusal, answer))
                    if refusal.popitem()[1] == "1":
                        self.assertEqual([(answer.stdout.decode()[:1], answer.returncode) for answer in lines],
                                         [("{", 4), ("{", 4), ("b", 4)])


class Many(unittest.TestCase):
    """`judge --many` gives each trace the object that `judge` gives it alone."""

    def many(self, text, *words):
        line, status = run(["judge", "--many", "--json", *words], text)
        return line.splitlines(keepends=True), status

    def alone(self, text, *words):
        return run(["judge", "--json", *words], text)

    def test_same_answers(self):
        texts = [content(f"{DATA}/{name}") for name in traces("kernel")]
        for words in ([], ["--slack", "any"], ["--least", "none", "--budget", "0"]):
            alone = [self.alone(text, *words) for text in texts]
            found = self.many(b"".join(text + b"end\n" for text in texts), *words)
            self.assertEqual(found, ([line for line, _ in alone], max(status for _, status in alone)))

    def test_where_a_trace_ends(self):
        text = content(f"{DATA}/{traces('kernel')[0]}")
        line = self.alone(text)[0]
        for given, expected in ((b"", []), (b"end\n", [b""]), (text, [text]), (text + b"end\n", [text]),
                                (text + b"end\n" + text, [text, text]), (text + b"end", [text + b"end"]),
                                (text + b"end \nend\n", [text + b"end \n"]), (b"\nend\n" + text, [b"\n", text])):
            self.assertEqual(self.many(given)[0], [self.alone(trace)[0] for trace in expected], given[-20:])
        self.assertEqual(self.many(b"")[1], 0)
        self.assertEqual(json.loads(self.many(b"end\n" + text)[0][0])["fault"]["kind"], "header")
        self.assertEqual(self.many(b"end\n" + text)[0][1], line)
        self.assertEqual(self.many(b"end\n" + text)[1], 2)

    def test_an_answer_comes_before_the_next_trace(self):
        text = content(f"{DATA}/{traces('kernel')[0]}")
        words = [*LAB, "judge", "--many", "--json"]
        with subprocess.Popen(words, stdin=subprocess.PIPE, stdout=subprocess.PIPE) as process:
            for _ in range(3):
                process.stdin.write(text + b"end\n")
                process.stdin.flush()
                self.assertEqual(process.stdout.readline().decode(), self.alone(text)[0])
            process.stdin.close()
            self.assertEqual(process.stdout.read(), b"")

    def test_other_words(self):
        for words in (["--many"], ["--many", "--json", "--case", "file"], ["--many", "--many", "--json"]):
            self.assertEqual(run(["judge", *words], b""), ("bad usage\n", 3))

    def test_a_full_device(self):
        text = content(f"{DATA}/{traces('kernel')[0]}")
        with open("/dev/full", "wb") as full:
            ran = subprocess.run([*LAB, "judge", "--many", "--json"], input=text + b"end\n" + text, stdout=full,
                                 stderr=subprocess.PIPE, check=False, timeout=60)
        self.assertEqual((ran.returncode, ran.stderr.count(b"\n")), (5, 1))


if __name__ == "__main__":
    unittest.main()
