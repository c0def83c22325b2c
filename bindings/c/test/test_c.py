#!/usr/bin/env python3
"""Tests the library for C, as built by bindings/c/build: its answers on all case files, in C and C++, by several
threads, with refused memory, and under valgrind.

    bindings/c/test/test_c.py [LIBRARY]

LIBRARY is the folder of the built library. Without it, the library is built without proofs first, unless a current one
is in .built/.
"""
import os
import re
import shutil
import subprocess
import sys
import tempfile
import unittest

HERE = os.path.dirname(os.path.abspath(__file__))
TOP = os.path.dirname(os.path.dirname(os.path.dirname(HERE)))
CASES = f"{TOP}/crates/test_cases/data"
LIBRARY = ""
WARNINGS = ["-Wall", "-Wextra", "-Wpedantic", "-Werror"]
COMPILERS = {"gcc": ["gcc", "-std=c11"], "clang": ["clang", "-std=c11"], "g++": ["g++", "-std=c++17", "-x", "c++"],
             "clang++": ["clang++", "-std=c++17", "-x", "c++"]}


def output(*words, **options):
    """The standard output of a program, which has to succeed."""
    return subprocess.run(words, check=True, stdout=subprocess.PIPE, text=True, timeout=600, **options).stdout


def expected():
    """The name of each case, and the line of its answer."""
    with open(f"{CASES}/expected.txt", encoding="utf-8") as file:
        return dict(line.rstrip("\n").split("\t") for line in file)


def case(name):
    return f"{CASES}/{name}.case"


class Library(unittest.TestCase):
    @classmethod
    def setUpClass(cls):
        cls.folder = tempfile.mkdtemp()
        cls.addClassCleanup(shutil.rmtree, cls.folder)
        cls.programs = {}
        for name, words in COMPILERS.items():
            program = f"{cls.folder}/{name}"
            subprocess.run([*words, *WARNINGS, "-g", "-O1", f"-I{LIBRARY}", f"{HERE}/programs.c", "-o", program, "-x",
                            "none", f"-L{LIBRARY}", f"-Wl,-rpath,{LIBRARY}", "-ltcpwit", "-lpthread"], check=True)
            cls.programs[name] = program
        cls.program = cls.programs["gcc"]

    def test_each_case_has_its_line(self):
        names = expected()
        said = output(self.program, "lines", *map(case, names)).splitlines()
        self.assertEqual(dict(zip(names, said)), names)
        self.assertEqual(len(said), len(names))

    def test_two_texts_have_the_line_of_the_case(self):
        for name, line in list(expected().items())[::40]:
            with open(case(name), "rb") as file:
                text = file.read()
            version = re.match(rb"trace (\d+)", text)
            cut = version and re.search(rb"^witness " + version[1] + rb"\r?\n", text, re.MULTILINE)
            place = cut.start() if cut else len(text)
            for part, piece in (("trace", text[:place]), ("witness", text[place:])):
                with open(f"{self.folder}/{part}", "wb") as file:
                    file.write(piece)
            if cut:
                self.assertEqual(output(self.program, "two", f"{self.folder}/trace", f"{self.folder}/witness"),
                                 line + "\n", name)

    def test_all_compilers_and_the_static_library_agree(self):
        names = list(expected())[::25]
        wanted = output(self.program, "lines", *map(case, names))
        for program in self.programs.values():
            self.assertEqual(output(program, "lines", *map(case, names)), wanted)
        words = output("pkg-config", "--cflags", "--libs", "--static", "tcpwit",
                       env={**os.environ, "PKG_CONFIG_PATH": LIBRARY}).split()
        program = f"{self.folder}/static"
        subprocess.run(["gcc", f"{HERE}/programs.c", "-o", program, *words, "-lpthread", "-Wl,-Bstatic", "-ltcpwit",
                        "-Wl,-Bdynamic"], check=True)
        subprocess.run(["gcc", f"{HERE}/programs.c", "-o", program, f"-I{LIBRARY}", f"{LIBRARY}/libtcpwit.a",
                        "-lpthread"], check=True)
        self.assertEqual(output(program, "lines", *map(case, names)), wanted)

    def test_eight_threads_agree(self):
        names = expected()
        self.assertEqual(output(self.program, "threads", "8", *map(case, names)).splitlines(), list(names.values()))

    def test_rules_have_their_names(self):
        with open(f"{TOP}/docs/reference/rules.md", encoding="utf-8") as file:
            names = dict(re.findall(r"^### (\d+) ([a-z-]+)$", file.read(), re.MULTILINE))
        self.assertEqual(sorted(map(int, names)), [*range(1, 58)])
        lines = [f"{rule} {len(names.get(str(rule), ''))} {names.get(str(rule), '')}" for rule in range(59)]
        self.assertEqual(output(self.program, "rules").splitlines(), lines)

    def test_small_memory_gets_the_beginning(self):
        self.assertEqual(output(self.program, "short").splitlines(),
                         ["23 1234567", "23 bad ", "8 ", "8 1234567", "8 ack-lat", "8 ack-lat"])

    def test_half_of_the_stack_that_the_header_requires_is_enough(self):
        with open(f"{TOP}/bindings/c/tcpwit.h", encoding="utf-8") as file:
            required = int(re.search(r"thread has (\d+) KiB of free stack", file.read())[1])
        names = {name: line for name, line in list(expected().items())[::30]}
        said = output(self.program, "stack", str(required // 2), *map(case, names)).splitlines()
        self.assertEqual(dict(zip(names, said)), names)

    def test_a_copy_of_a_freed_text_may_not_be_freed(self):
        found = subprocess.run(["valgrind", "--quiet", "--error-exitcode=9", self.program, "copied"],
                               stderr=subprocess.PIPE, text=True, check=False)
        self.assertEqual((found.returncode, found.stderr.count("Invalid free()")), (9, 1))

    def test_the_lab_says_what_the_program_says(self):
        name = f"{TOP}/stacks/recorded/lwip-hostile-ack-despite-nagle.case"
        with open(name, "rb") as file:
            text = file.read()
        trace = text[: text.index(b"\nwitness ") + 1]
        with open(f"{self.folder}/one_trace", "wb") as file:
            file.write(trace)
        said = output(self.program, "lab", name, f"{self.folder}/one_trace")
        lab = os.environ.get("TCPWIT_LAB", f"{TOP}/tcpwit_lab")
        run = lambda words, given: subprocess.run([lab, *words], input=given, stdout=subprocess.PIPE,
                                                  stderr=subprocess.DEVNULL, check=False)
        explained, remarked = run(["explain", "--simulated"], text), run(["remark"], text)
        found, judged = run(["find"], trace), run(["judge", "--case", f"{self.folder}/judged"], trace)
        with open(f"{self.folder}/judged", "rb") as file:
            kept = file.read()
        printed = judged.stdout[: judged.stdout.rindex(b"\n", 0, -1) + 1]
        wanted = b"".join([b"explain 1\n", explained.stdout, b"remark %d\n" % remarked.returncode, remarked.stdout,
                           b"find 0\n", found.stdout, b"judge 1 3\n", printed, kept])
        self.assertEqual(said, wanted.decode())

    def test_traces_are_written(self):
        program = f"{self.folder}/trace"
        subprocess.run(["gcc", "-std=c99", *WARNINGS, f"-I{TOP}/bindings/c", f"{HERE}/trace.c", "-o", program],
                       check=True)
        for words, path in (([], f"{CASES}/examples/handshake_and_five_bytes.case"),
                            (["unanswered"], f"{TOP}/stacks/tests/unanswered.case")):
            with open(path, encoding="utf-8") as file:
                self.assertEqual(output(program, *words), file.read())
        self.assertEqual(output(program, "any"), "hosts 2\ncongestion recovery\nslack any\n")
        self.assertEqual(output(program, "six"),
                         "trace 6\nskew 0\nmsl 120000000\ngrain 1000\nminrto 1000000\nextra 0\ninitial 5681\nhosts 1\n"
                         "congestion recovery\nslack 20000\nsender cubic\ngrowth any\n10 9 T 0 4000 80 pto\n")

    def test_the_page_shows_a_program_that_works(self):
        with open(f"{TOP}/docs/how-to/embedding.md", encoding="utf-8") as file:
            page = file.read()
        code = re.search(r"^    #include <stdio.h>\n(?:(?:    .*)?\n)*?    }\n", page, re.MULTILINE)[0]
        with open(f"{self.folder}/judge.c", "w", encoding="utf-8") as file:
            file.write(re.sub(r"^    ", "", code, flags=re.MULTILINE))
        compiled = re.search(r"^    (cc judge.c .*)$", page, re.MULTILINE)[1].replace("DIR", LIBRARY)
        said = output("sh", "-c", f"{compiled} && ./judge < {TOP}/examples/handshake.case", cwd=self.folder)
        self.assertEqual(said, "yes 18 13\n")

    def test_refused_memory_is_an_answer(self):
        program = f"{self.folder}/refused"
        words = ["gcc", "-std=c11", *WARNINGS, "-O1", f"-I{LIBRARY}", f"-I{TOP}/bindings/c", f"{HERE}/refused.c", "-o",
                 program, f"{LIBRARY}/libtcpwit.a"]
        subprocess.run([*words, "-Wl,--wrap=malloc,--wrap=realloc"], check=True)
        name = f"{TOP}/examples/queue_full.case"
        with open(name, "rb") as file:
            text = file.read()
        with open(f"{self.folder}/refused_trace", "wb") as file:
            file.write(text[: text.index(b"\nwitness ") + 1])
        said = output(program, name, f"{self.folder}/refused_trace").splitlines()
        self.assertEqual(len(said), 6)
        for line in said:
            self.assertIn("some ran out of memory", line)

    def test_valgrind_finds_nothing(self):
        names = list(expected())[::90]
        words = ["valgrind", "--quiet", "--leak-check=full", "--errors-for-leak-kinds=all", "--show-leak-kinds=all",
                 "--error-exitcode=9"]
        output(*words, self.program, "lines", *map(case, names))
        name = f"{TOP}/stacks/recorded/lwip-hostile-ack-despite-nagle.case"
        with open(name, "rb") as file:
            text = file.read()
        with open(f"{self.folder}/valgrind_trace", "wb") as file:
            file.write(text[: text.index(b"\nwitness ") + 1])
        output(*words, self.program, "lab", name, f"{self.folder}/valgrind_trace")

    def test_only_these_names_are_exported(self):
        with open(f"{TOP}/bindings/c/tcpwit.map", encoding="utf-8") as file:
            names = sorted(re.findall(r"tcpwit_\w+", file.read()))
        shared = [line.split()[-1].split("@")[0]
                  for line in output("nm", "-D", "--defined-only", f"{LIBRARY}/libtcpwit.so.1").splitlines()]
        self.assertEqual(sorted(it for it in shared if it != "TCPWIT_1"), names)
        static = output("nm", "-g", "--defined-only", f"{LIBRARY}/libtcpwit.a").splitlines()
        self.assertEqual(sorted(line.split()[-1] for line in static if len(line.split()) == 3), names)
        with open(f"{TOP}/bindings/c/tcpwit.h", encoding="utf-8") as file:
            declared = set(re.findall(r"^(?:void|size_t|uint32_t) (tcpwit_\w+)\(", file.read(), re.MULTILINE))
        self.assertEqual(sorted(declared), names)


def current_library():
    """The folder of a library that was built without proofs, and isn't older than its sources."""
    sys.path.insert(0, f"{TOP}/tools")
    import unproved
    folder = f"{TOP}/.built/c"
    if not unproved.is_current(f"{folder}/libtcpwit.so.1", "tcpwit_c"):
        subprocess.run([f"{TOP}/bindings/c/build", "--unproved", folder], check=True)
    return folder


def given_library():
    """The folder of the library that the command line names, else that of the current one."""
    is_given = len(sys.argv) > 1 and os.path.isdir(sys.argv[1])
    return os.path.abspath(sys.argv.pop(1)) if is_given else current_library()


if __name__ == "__main__":
    sys.dont_write_bytecode = True
    LIBRARY = given_library()
    unittest.main()
