#!/usr/bin/python3
"""Tests what packaging/build runs, packs and refuses. This needs no toolchain: a script replaces it, /bin/true replaces
both programs, and functions that do nothing replace those of the library."""
import gzip
import os
import re
import shutil
import subprocess
import tempfile
import unittest

TOP = os.path.dirname(os.path.dirname(os.path.abspath(__file__)))
# The folders whose files are in the package.
FOLDERS = ("bindings", "docs", "examples", "importer", "packaging", "stacks")
FILES = (".gitignore", "CHANGELOG.md", "README.md", "tools/unproved.py", "crates/verdict/src/rule.rt")
TOOLS = ("ar", "cc", "dpkg-deb", "git", "objcopy", "objdump", "strip", "xz")
# Replaces the toolchain. It records each `rt run` with the first line that it reads. It builds the program once and
# then leaves it unchanged, since no source changes. Then it prints the program's expected output. The folder of the
# toolchain has an allocator.
RT = """#!/bin/sh
name=$(basename "$PWD")
case $1 in
version) echo a toolchain ;;
doc) echo {folder}/START-HERE.md ;;
lib)
  echo "$name $*" >> {folder}/runs
  mkdir -p out
  cp {folder}/stub.a "out/lib$name.a" ;;
run)
  echo "$name $* $(head -n 1)" >> {folder}/runs
  {instead}
  mkdir -p out
  [ -e "out/$name" ] || cp /bin/true "out/$name"
  echo a message
  cat stdout
  exit "$(cat status 2>/dev/null || echo 0)" ;;
esac
"""


def read(path):
    """The bytes of a file."""
    with open(path, "rb") as file:
        return file.read()


def lines_of(path):
    """The lines of a file of the repository."""
    return read(f"{TOP}/{path}").decode().splitlines()


# How `rt run` is called for each program, and what is recorded about it.
CALLS = {name: f"run -- {' '.join(lines_of(f'crates/{name}/args'))}" for name in ("tcpwit", "tcpwit_lab")}
RUNS = [f"{name} {call} {lines_of(f'crates/{name}/stdin')[0]}" for name, call in CALLS.items()]
LIB = "tcpwit_c lib"
# The packages' names, without versions.
NAMES = ["SHA256SUMS", "libtcpwit-dev.deb", "libtcpwit1.deb", "tcpwit.deb", "tcpwit.tar.xz"]


@unittest.skipUnless(all(map(shutil.which, TOOLS)), f"needs {', '.join(TOOLS)}")
class Build(unittest.TestCase):
    def setUp(self):
        folder = tempfile.TemporaryDirectory()
        self.addCleanup(folder.cleanup)
        self.folder, self.top, self.out = folder.name, f"{folder.name}/clone", f"{folder.name}/packages"
        for name in FOLDERS:
            shutil.copytree(f"{TOP}/{name}", f"{self.top}/{name}",
                            ignore=shutil.ignore_patterns("__pycache__", "out", ".built"))
        for name in FILES + tuple(self.crate_files()):
            os.makedirs(os.path.dirname(f"{self.top}/{name}"), exist_ok=True)
            shutil.copy(f"{TOP}/{name}", f"{self.top}/{name}")
        for name in ("tcpwit", "tcpwit_lab"):
            self.write(f"clone/crates/{name}/src/main.rt", "")
        self.write("clone/crates/tcpwit_c/src/lib.rt", "")
        self.write("clone/crates.txt", "tcpwit:\ntcpwit_lab:\ntcpwit_c staticlib:\n")
        self.write("clone/tests/programs.txt", "")
        self.stub()
        self.toolchain()
        self.git("init", "--quiet")
        self.commit()

    @staticmethod
    def crate_files():
        """The files with a program's arguments, input and output."""
        names = [f"crates/{crate}/{name}" for crate in ("tcpwit", "tcpwit_lab")
                 for name in ("args", "stdin", "stdout", "status")]
        return [name for name in names if os.path.exists(f"{TOP}/{name}")]

    def write(self, name, text):
        """Writes a file or a program."""
        path = f"{self.folder}/{name}"
        os.makedirs(os.path.dirname(path), exist_ok=True)
        with open(path, "w", encoding="ascii") as file:
            file.write(text)
        os.chmod(path, 0o755)

    def toolchain(self, instead=""):
        """Writes the script that replaces the toolchain; it may do something else instead of building."""
        self.write("bin/rt", RT.format(folder=self.folder, instead=instead))

    def stub(self):
        """Compiles functions that replace those of the library and of the toolchain's allocator."""
        with open(f"{TOP}/bindings/c/tcpwit.map", encoding="ascii") as file:
            names = set(re.findall(r"tcpwit_\w+", file.read())) - {"tcpwit_text_free"}
        os.makedirs(f"{self.folder}/c")
        sources = {"stub": "".join(f"void {name}(void) {{}}\n" for name in sorted(names)),
                   "c/liblibc_c": "#include <stdlib.h>\nvoid rattle_dealloc(void *block) { free(block); }\n"}
        for name, source in sources.items():
            self.write(f"{name}.c", source)
            subprocess.run(["cc", "-c", "-fPIC", f"{self.folder}/{name}.c", "-o", f"{self.folder}/{name}.o"],
                           check=True)
            subprocess.run(["ar", "rcs", f"{self.folder}/{name}.a", f"{self.folder}/{name}.o"], check=True)

    def environment(self):
        """The environment of each command: PATH has the script, but not this machine's toolchain."""
        user = {f"GIT_{role}_{key}": value for role in ("AUTHOR", "COMMITTER")
                for key, value in (("NAME", "Someone"), ("EMAIL", "someone@example.org"))}
        return {"PATH": f"{self.folder}/bin:/usr/bin:/bin", "HOME": self.folder, "PYTHONDONTWRITEBYTECODE": "1",
                "LC_ALL": "C.UTF-8", **user}

    def git(self, *words):
        """Output of a git command."""
        return subprocess.run(["git", *words], cwd=self.top, env=self.environment(), check=True, capture_output=True,
                              text=True).stdout.strip()

    def commit(self):
        """Commits everything."""
        self.git("add", "--all")
        self.git("commit", "--quiet", "--message", "a commit")

    def build(self, *words):
        """Status, lines of output and errors of packaging/build."""
        done = subprocess.run(["packaging/build", "--out", self.out, *words], cwd=self.top, env=self.environment(),
                              capture_output=True, text=True, timeout=120, check=False)
        return done.returncode, done.stdout.splitlines(), done.stderr

    def runs(self):
        """The toolchain's calls since the last check."""
        path = f"{self.folder}/runs"
        if not os.path.exists(path):
            return []
        lines = read(path).decode().splitlines()
        os.remove(path)
        return lines

    def packages(self):
        """The names of the files that were created."""
        names = sorted(os.listdir(self.out)) if os.path.exists(self.out) else []
        return {name: read(f"{self.out}/{name}") for name in names}

    def unpacked(self, start="tcpwit"):
        """The folder of a package's files."""
        root = f"{self.folder}/root"
        shutil.rmtree(root, ignore_errors=True)
        package = next(name for name in self.packages() if name.startswith(start) and name.endswith(".deb"))
        subprocess.run(["dpkg-deb", "--extract", f"{self.out}/{package}", root], check=True)
        return root

    def refused(self, cause, *words):
        """Checks that nothing is packed, for this cause."""
        status, lines, error = self.build(*words)
        self.assertEqual((status, lines, self.packages()), (2, [], {}), error)
        self.assertRegex(error, cause)
        self.assertIn("Nothing is packed", error)
        self.assertNotIn("Traceback", error)

    def test_missing_programs_are_proved_and_packed(self):
        status, lines, error = self.build()
        self.assertEqual(status, 0, error)
        self.assertEqual(self.runs(), [*RUNS, LIB])
        for words in (*(f"{name} && rt {call} < stdin" for name, call in CALLS.items()), "about an hour"):
            self.assertIn(words, error)
        names = list(self.packages())
        self.assertEqual([re.sub(r"_.*_amd64", "", name) for name in names], NAMES)
        wanted = [f"{self.out}/{name}" for name in (*names[1:], names[0])]
        self.assertEqual(lines, [*wanted, f"commit    {self.git('rev-parse', 'HEAD')}", "toolchain a toolchain"])
        subprocess.run(["sha256sum", "--check", "--strict", "--quiet", "SHA256SUMS"], cwd=self.out, check=True)
        self.assertEqual([line.split("  ")[1] for line in read(f"{self.out}/SHA256SUMS").decode().splitlines()],
                         names[1:])

    def test_what_the_package_says(self):
        self.build()
        root = self.unpacked()
        built = read(f"{root}/usr/share/doc/tcpwit/BUILT").decode()
        self.assertIn(f"commit    {self.git('rev-parse', 'HEAD')}\ntoolchain a toolchain\nproofs    proved\n", built)
        for name in ("tcpwit", "tcpwit_lab"):
            subprocess.run([f"{root}/usr/bin/{name}"], check=True)
            self.assertIn(f"/usr/bin/{name}\n", built)
        with gzip.open(f"{root}/usr/share/man/man1/tcpwit-record.1.gz", "rt") as file:
            self.assertIn(r".B \-\-kernel {plain,shipped}", file.read())

    def test_a_program_can_be_compiled_with_the_library(self):
        self.build()
        with open(f"{TOP}/bindings/c/tcpwit.map", encoding="ascii") as file:
            names = set(re.findall(r"tcpwit_\w+", file.read()))
        root = self.unpacked("libtcpwit-dev")
        with tempfile.TemporaryDirectory() as shared:
            package = next(name for name in self.packages() if name.startswith("libtcpwit1"))
            subprocess.run(["dpkg-deb", "--extract", f"{self.out}/{package}", root], check=True)
            subprocess.run(["dpkg-deb", "--control", f"{self.out}/{package}", f"{shared}/control"], check=True)
            self.assertEqual(read(f"{shared}/control/shlibs"), b"libtcpwit 1 libtcpwit1\n")
            self.assertIn("ldconfig", read(f"{shared}/control/triggers").decode())
        self.write("program.c", '#include <tcpwit.h>\n#include <tcpwit_trace.h>\n'
                                'int main(void) { tcpwit_check("", 0, NULL); return 0; }\n')
        libraries = f"{root}/usr/lib/x86_64-linux-gnu"
        environment = {**self.environment(), "PKG_CONFIG_PATH": f"{libraries}/pkgconfig",
                       "PKG_CONFIG_SYSROOT_DIR": root}
        for words in ("-ltcpwit", f"{libraries}/libtcpwit.a"):
            command = (f"cc program.c -I{root}/usr/include -L{libraries} {words} -o program && "
                       f"LD_LIBRARY_PATH={libraries} ./program")
            subprocess.run(["sh", "-c", command], cwd=self.folder, env=environment, check=True)
        symbols = subprocess.run(["nm", "-D", "--defined-only", f"{libraries}/libtcpwit.so.1"], capture_output=True,
                                 text=True, check=True).stdout
        self.assertEqual({line.split()[-1].split("@")[0] for line in symbols.splitlines()} - {"TCPWIT_1"}, names)
        self.assertIn("prefix=/usr\n", read(f"{libraries}/pkgconfig/tcpwit.pc").decode())

    @unittest.skipUnless(shutil.which("groff"), "needs groff")
    def test_the_manual_has_no_faults(self):
        self.build()
        for folder, _, names in os.walk(f"{self.unpacked()}/usr/share/man"):
            for name in names:
                page = gzip.decompress(read(f"{folder}/{name}"))
                done = subprocess.run(["groff", "-man", "-ww", "-z", "-Tutf8", "-Kutf8"], input=page,
                                      capture_output=True, check=True)
                self.assertEqual((name, done.stderr), (name, b""))
                self.assertNotRegex(page, b"@[A-Z]+@")

    def test_current_programs_are_packed_again(self):
        self.build()
        self.runs()
        before = self.packages()
        self.assertEqual(self.build()[0], 0)
        self.assertEqual((self.runs(), self.packages()), ([LIB], before))

    def test_an_old_program_is_proved(self):
        self.build()
        self.runs()
        os.utime(f"{self.top}/crates/tcpwit_lab/out/tcpwit_lab", (1, 1))
        for runs in (RUNS[1:], []):
            self.assertEqual(self.build()[0], 0)
            self.assertEqual(self.runs(), [*runs, LIB])

    def test_a_failed_proof(self):
        self.toolchain("echo error: a proof fails >&2; exit 1")
        self.refused("a proof fails")
        self.assertEqual(self.runs(), RUNS[:1])

    def test_a_program_that_prints_something_else(self):
        self.toolchain("mkdir -p out; cp /bin/true out/$name; exit 0")
        self.refused(f"`cd crates/tcpwit && rt {CALLS['tcpwit']} < stdin` doesn't end")

    def test_a_change_without_a_commit(self):
        for name in ("clone/new", "clone/README.md"):
            self.write(name, "# tcpwit 1.0\n")
            self.refused(f"(?s)git status.*{os.path.basename(name)}")
            self.assertEqual(self.runs(), [])
            self.commit()

    def test_a_change_during_the_proofs(self):
        self.toolchain(f"echo > {self.top}/new")
        self.refused("(?s)git status.*new")
        self.toolchain("git add --all; git commit --quiet --message later --allow-empty")
        shutil.rmtree(f"{self.top}/crates/tcpwit/out")
        self.commit()
        self.refused("another commit")

    def test_without_the_toolchain(self):
        os.remove(f"{self.folder}/bin/rt")
        for words in ([], ["--unproved"]):
            self.refused("rt isn't in PATH: it belongs to the Rattle toolchain", *words)

    def test_a_folder_that_cannot_be_written(self):
        self.write("packages", "")
        status, lines, error = self.build()
        self.assertEqual((status, lines, self.runs()), (2, [], []), error)
        self.assertIn(f"{self.out}: File exists", error)

    def test_unproved_programs(self):
        for name in ("tcpwit", "tcpwit_lab"):
            os.makedirs(f"{self.top}/.built", exist_ok=True)
            shutil.copy("/bin/true", f"{self.top}/.built/{name}")
        with open(f"{self.top}/tools/unproved.py", "a", encoding="utf-8") as file:
            file.write(f"\n\ndef build_object(name, calls, out):\n    shutil.copy('{self.folder}/stub.o', out)\n")
        status, lines, error = self.build("--unproved")
        self.assertEqual((status, self.runs()), (0, []), error)
        self.assertEqual([re.sub(r"_.*_amd64", "", name) for name in self.packages()],
                         [re.sub(r"(\w)\.", r"\1-unproved.", name, count=1) for name in NAMES])
        self.assertEqual(lines[5], f"commit    {self.git('rev-parse', 'HEAD')} and uncommitted changes")
        self.assertIn("proofs    NOT PROVED", read(f"{self.unpacked()}/usr/share/doc/tcpwit-unproved/BUILT").decode())


if __name__ == "__main__":
    unittest.main()
