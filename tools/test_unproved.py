#!/usr/bin/python3
"""Tests which programs the scripts of a clone run, and their messages if there is none. This needs no toolchain:
scripts replace it."""
import contextlib
import os
import pty
import pwd
import re
import shutil
import subprocess
import sys
import tempfile
import unittest

TOP = os.path.dirname(os.path.dirname(os.path.abspath(__file__)))
NO_PROGRAM = 127
# The files of a repository that the scripts need.
FOLDERS = ("importer/tcpwit_importer", "stacks/tcpwit_stacks")
FILES = ("tcpwit", "tcpwit_lab", "tools/unproved.py", "tools/both.rt.txt", "importer/tcpwit-import", "stacks/run",
         "stacks/scenarios/data-bulk.scenario")
# A program that answers `judge` without input as tcpwit_lab does, and prints its name for everything else.
PROGRAM = """#!/bin/sh
[ "$*" = judge ] && exit 2
echo "this is $(basename "$0")"
"""
# Replaces the toolchain: `rt doc` prints its folder, and `rt try` passes a large module to the compiler next to it.
RT = """#!/bin/sh
case $1 in
doc) echo {kit}/doc ;;
try) head -c 200000 /dev/zero > {folder}/module.bc; "$(dirname "$0")/../toolchain/bin/clang" {folder}/module.bc ;;
esac
"""
# The compiler and the linker: the file after -o is the program above.
MAKER = """#!/bin/sh
while [ $# -gt 1 ] && [ "$1" != -o ]; do shift; done
[ $# -gt 1 ] && cp {folder}/program "$2"
exit 0
"""
# `rt try` passes a module that begins with the sources of a library and of its tests; the compiler copies it.
RT_OF_LIBRARY = """#!/bin/sh
case $1 in
doc) echo {kit}/doc ;;
try) {{ cat src/lib.rt src/tests.rt; head -c 200000 /dev/zero | tr '\\0' '\\n'; }} > {folder}/module.bc
  "$(dirname "$0")/../toolchain/bin/clang" {folder}/module.bc ;;
esac
"""
COPIER = """#!/bin/sh
while [ "$2" != -o ]; do shift; done
cp "$1" "$3"
"""
# The root file of a program, and what is made of it as a module of the program `both`.
MAIN = """//! A program.
#![tactic(auto)]

mod words;

use crate::words::run;

fn main(rt: HostRuntime) -> ExitCode {
    ExitCode::from(run_process(&rt))
}

pub(crate) fn run_process<H>(rt: &H) -> u8 {
    run(rt)
}
"""
MODULE = """//! A program.

mod words;

use crate::tcpwit::words::run;


pub(crate) fn run_process<H>(rt: &H) -> u8 {
    run(rt)
}
"""
# A test, and what is made of it.
TEST = """#[test]
fn two_wait(rt: HostRuntime) {
    assert!(rt; waited(&rt, rt.alloc()));
}
"""
FUNCTION = """pub(crate) fn two_wait<H: std::process::Abort + std::sync::Wait + std::thread::Threads + Sync>(
    rt: &H,
    alloc: std::alloc::Global,
) {
    assert!(rt; waited(rt, alloc));
}
"""
# A library that exports one function, and what is made of a test that calls it.
LIBRARY = '#![tactic(auto)]\n\nmod ends;\n'
ENDS = '#[unsafe(no_mangle)]\npub extern "C" fn ends(text: &[u8], more: bool) -> u32 {\n'
CALLS = """define i32 @main() {
define internal noundef i32 @"lib::ends::ends"(ptr noundef %0, i64 noundef %1, i1 noundef zeroext %2) #1 {
"""
ALIAS = '@ends = alias i32 (ptr, i64, i1), ptr @"lib::ends::ends"\n'


class Clone(unittest.TestCase):
    def setUp(self):
        folder = tempfile.TemporaryDirectory()
        self.addCleanup(folder.cleanup)
        self.folder, self.top = folder.name, f"{folder.name}/clone"
        for name in FOLDERS:
            shutil.copytree(f"{TOP}/{name}", f"{self.top}/{name}", ignore=shutil.ignore_patterns("__pycache__"))
        for name in FILES:
            os.makedirs(os.path.dirname(f"{self.top}/{name}"), exist_ok=True)
            shutil.copy(f"{TOP}/{name}", f"{self.top}/{name}")
        for name in ("tcpwit", "tcpwit_lab"):
            self.write(f"clone/crates/{name}/src/main.rt", "")
        self.write("clone/crates.txt", "tcpwit:\ntcpwit_lab:\n")
        self.write("clone/tests/programs.txt", "")
        self.write("program", PROGRAM)
        os.mkdir(f"{self.folder}/bin")

    def write(self, name, text):
        """Writes a program."""
        path = f"{self.folder}/{name}"
        os.makedirs(os.path.dirname(path), exist_ok=True)
        with open(path, "w", encoding="ascii") as file:
            file.write(text)
        os.chmod(path, 0o755)

    def text(self, path):
        """The text of a file."""
        with open(path, encoding="ascii") as file:
            return file.read()

    def built(self, *names):
        """Writes programs to where ./tcpwit and ./tcpwit_lab cache them."""
        for name in names:
            self.write(f"clone/.built/{name}", PROGRAM)

    def toolchain(self, rt=RT, maker=MAKER):
        """Writes the scripts that replace the toolchain."""
        kit = f"{self.folder}/kit"
        for name in ("bin/rt", "bin/rtlib.py"):
            self.write(f"kit/{name}", rt.format(kit=kit, folder=self.folder))
        for name in ("clang", "ld.lld"):
            self.write(f"kit/toolchain/bin/{name}", maker.format(folder=self.folder))
        os.symlink(f"{kit}/bin/rt", f"{self.folder}/bin/rt")

    def run_in_clone(self, *words, **variables):
        """Status, output and errors of a command whose PATH lacks this machine's toolchain."""
        environment = {"PATH": f"{self.folder}/bin:/usr/bin:/bin", "PYTHONDONTWRITEBYTECODE": "1", **variables}
        done = subprocess.run(words, cwd=self.top, env=environment, capture_output=True, text=True, timeout=60,
                              check=False, start_new_session=True)
        return done.returncode, done.stdout, done.stderr

    def found(self, name):
        """The program that the importer or the suite for stacks finds, and its messages on standard error."""
        if name == "importer":
            code = ("import sys; sys.path.insert(0, 'importer'); from tcpwit_importer.commands import lab; "
                    "print(lab.program(None))")
        else:
            code = "import sys; sys.path.insert(0, 'stacks'); from tcpwit_stacks import programs; " \
                   "print(programs.program('tcpwit', None), programs.program('tcpwit_lab', None))"
        status, out, error = self.run_in_clone(sys.executable, "-W", "ignore", "-c", code)
        self.assertEqual(status, 0, error)
        return out.split(), error

    def test_without_the_toolchain(self):
        for name in ("tcpwit", "tcpwit_lab"):
            status, out, error = self.run_in_clone(f"./{name}", "check")
            self.assertEqual((status, out), (NO_PROGRAM, ""))
            self.assertIn(f"{name} isn't built, and the Rattle toolchain, whose command is rt, isn't in PATH", error)
            self.assertIn("install the Debian package", error)
            self.assertFalse(os.path.exists(f"{self.top}/.built"))

    def test_the_built_programs(self):
        self.built("tcpwit", "tcpwit_lab")
        self.assertEqual(self.run_in_clone("./tcpwit", "check"), (0, "this is tcpwit\n", ""))
        self.assertEqual(self.found("importer"), ([f"{self.top}/.built/tcpwit_lab"], ""))
        self.assertEqual(self.found("stacks"), ([f"{self.top}/.built/tcpwit", f"{self.top}/.built/tcpwit_lab"], ""))

    def test_the_path_comes_first(self):
        self.built("tcpwit", "tcpwit_lab")
        for name in ("tcpwit", "tcpwit_lab"):
            self.write(f"bin/{name}", PROGRAM)
        self.assertEqual(self.found("importer"), ([f"{self.folder}/bin/tcpwit_lab"], ""))
        self.assertEqual(self.found("stacks"), ([f"{self.folder}/bin/tcpwit", f"{self.folder}/bin/tcpwit_lab"], ""))

    def test_missing_programs_are_built(self):
        self.toolchain()
        found, error = self.found("importer")
        self.assertEqual(found, [f"{self.top}/.built/tcpwit_lab"])
        self.assertIn("tcpwit_lab: building it without proofs, once", error)
        self.assertIn("and tcpwit with it", error)
        self.assertEqual(self.found("stacks"), ([f"{self.top}/.built/tcpwit", f"{self.top}/.built/tcpwit_lab"], ""))
        self.write("clone/crates/tcpwit/src/main.rt", "")
        error = self.found("stacks")[1]
        self.assertIn("tcpwit: building it", error)
        self.assertNotIn("tcpwit_lab: building it", error)

    def test_a_build_is_announced_on_the_terminal(self):
        """Standard error is a pipe, as with `2>&1 | tail`."""
        self.toolchain()
        code = "import sys; sys.path.insert(0, 'tools'); import unproved; unproved.kept('tcpwit')"
        child, terminal = pty.fork()
        if child == 0:
            os.chdir(self.top)
            os.environ["PATH"] = f"{self.folder}/bin:/usr/bin:/bin"
            os.execv("/bin/sh", ["sh", "-c", f'"{sys.executable}" -B -c "{code}" 2>&1 | cat > {self.folder}/said'])
        said = b""
        with contextlib.suppress(OSError):
            while more := os.read(terminal, 1 << 16):
                said += more
        os.close(terminal)
        self.assertEqual(os.waitpid(child, 0)[1], 0)
        with open(f"{self.folder}/said", encoding="utf-8") as file:
            lines = file.read().splitlines()
        self.assertIn("tcpwit: building it without proofs, once", lines[0])
        self.assertEqual(said.decode().splitlines(), lines[:1])

    def test_both_programs_are_one(self):
        for name in ("tcpwit", "tcpwit_lab"):
            self.write(f"clone/crates/{name}/src/main.rt", MAIN)
            self.write(f"clone/crates/{name}/src/words.rt", "use crate::Words;\n")
        self.write("clone/crates.txt", "low:\ntcpwit may_wait=2: low cli\ntcpwit_lab: cli\n")
        code = "import sys; sys.path.insert(0, 'tools'); import unproved; unproved.copy_joined('both', 'copy')"
        self.assertEqual(self.run_in_clone(sys.executable, "-c", code), (0, "", ""))
        root = f"{self.top}/copy/crates/both/src"
        self.assertEqual(sorted(os.listdir(root)), ["main.rt", "tcpwit", "tcpwit.rt", "tcpwit_lab", "tcpwit_lab.rt"])
        self.assertEqual(self.text(f"{root}/tcpwit.rt"), MODULE)
        self.assertEqual(self.text(f"{root}/tcpwit_lab/words.rt"), "use crate::tcpwit_lab::Words;\n")
        self.assertEqual(self.text(f"{self.top}/copy/crates.txt").splitlines()[-1], "both: cli low")

    def test_the_programs_in_tests_are_one(self):
        """A test is a function that is called by its name, and a change of a source makes a program outdated."""
        self.write("clone/tests/tests.rt.txt", "mod test_runs;\n")
        self.write("clone/tests/programs.txt", "# Each program.\ntest_runs: low\ntest_cases:\nbench_jobs:\n")
        for name in ("test_cases", "test_runs", "bench_jobs"):
            self.write(f"clone/tests/{name}/main.rt.txt", MAIN)
        self.write("clone/tests/test_runs/waits.rt.txt", TEST)
        code = "import sys; sys.path.insert(0, 'tools'); import unproved; unproved.copy_joined('tests', 'copy')"
        self.assertEqual(self.run_in_clone(sys.executable, "-c", code), (0, "", ""))
        root = f"{self.top}/copy/crates/tests/src"
        self.assertEqual(self.text(f"{root}/test_runs/waits.rt"), FUNCTION)
        self.assertIn('        "waits::two_wait" => crate::test_runs::waits::two_wait(rt, alloc),\n',
                      self.text(f"{root}/test_runs/all.rt"))
        self.assertEqual(self.text(f"{root}/bench_jobs.rt"), MODULE.replace("tcpwit", "bench_jobs"))
        self.assertEqual(self.text(f"{self.top}/copy/crates.txt").splitlines()[-1], "tests: low")
        self.built("test_runs")
        code = ("import sys; sys.path.insert(0, 'tools'); import unproved; "
                "print(unproved.is_current('.built/test_runs', 'test_runs'), *unproved.tests())")
        for wanted in ("True", "False"):
            self.assertEqual(self.run_in_clone(sys.executable, "-c", code), (0, f"{wanted} waits::two_wait\n", ""))
            self.write("clone/tests/test_runs/waits.rt.txt", TEST)

    def test_a_build_reports_its_progress(self):
        self.toolchain()
        for name, text in (("bin/rt", RT), ("toolchain/bin/clang", MAKER)):
            slow = text.replace("#!/bin/sh\n", "#!/bin/sh\nsleep 0.5\n")
            self.write(f"kit/{name}", slow.format(kit=f"{self.folder}/kit", folder=self.folder))
        code = ("import sys; sys.path.insert(0, 'tools'); import unproved; unproved.PERIOD = 0.2; "
                "unproved.kept('tcpwit')")
        status, out, error = self.run_in_clone(sys.executable, "-c", code)
        self.assertEqual((status, out), (0, ""), error)
        for step in ("step 1 of 2, translating: 0 s", "step 2 of 2, optimizing: 0 s"):
            self.assertIn(step, error)

    def test_a_library_is_built_from_calls(self):
        self.toolchain(RT_OF_LIBRARY, COPIER)
        self.write("clone/crates.txt", "lib staticlib:\n")
        self.write("clone/crates/lib/src/lib.rt", LIBRARY)
        self.write("clone/crates/lib/src/ends.rt", ENDS)
        self.write("clone/calls.txt", CALLS)
        words = ["tools/unproved.py", "--object", "lib", "calls.txt", "lib.o"]
        self.assertEqual(self.run_in_clone(*words), (0, "", ""))
        with open(f"{self.top}/lib.o", encoding="ascii") as file:
            made = re.sub(r"\n\n+", "\n\n", file.read())
        calls = CALLS.replace("i32 @main()", "internal i32 @tests_main()")
        self.assertEqual(made, f"{LIBRARY}\n#[cfg(test)]\nmod tests;\n{calls}\n{ALIAS}")
        self.assertEqual(sorted(os.listdir(f"{self.top}/crates/lib/src")), ["ends.rt", "lib.rt"])
        self.write("clone/calls.txt", "define i32 @main() {\n")
        self.assertEqual(self.run_in_clone(*words), (NO_PROGRAM, "", "calls.txt doesn't call ends\n"))

    @unittest.skipUnless(os.geteuid() == 0, "needs root")
    def test_under_sudo_the_owner_builds(self):
        self.toolchain()
        owner = pwd.getpwnam("nobody")
        for folder, _, names in os.walk(self.folder):
            for name in ["", *names]:
                os.chown(os.path.join(folder, name), owner.pw_uid, owner.pw_gid, follow_symlinks=False)
        status, out, error = self.run_in_clone("tools/unproved.py", "--keep", "tcpwit_lab", SUDO_UID=str(owner.pw_uid))
        self.assertEqual((status, out), (0, f"{self.top}/.built/tcpwit_lab\n"), error)
        self.assertEqual({os.stat(f"{self.top}/.built/{name}").st_uid
                          for name in ("", "tcpwit_lab", "tcpwit", "both.lock")}, {owner.pw_uid})

    def test_scripts_without_the_toolchain(self):
        for words in (["importer/tcpwit-import", "--capture", "0", "none.pcap", "--calls", "0", "none.log", "--out",
                       "run.trace"], ["stacks/run", "true", "data-bulk"]):
            status, out, error = self.run_in_clone(*words)
            self.assertEqual((status, out), (2, ""), error)
            self.assertIn("install the Debian package", error)
            self.assertNotIn("Traceback", error)

    def test_an_installed_package_has_nothing_to_build(self):
        os.remove(f"{self.top}/tools/unproved.py")
        status, _, error = self.run_in_clone("stacks/run", "true", "data-bulk")
        self.assertEqual(status, 2)
        self.assertIn("tcpwit and tcpwit_lab aren't found. The package tcpwit contains both", error)
        for name in ("tcpwit", "tcpwit_lab"):
            self.write(f"bin/{name}", PROGRAM)
        self.assertEqual(self.found("importer"), ([f"{self.folder}/bin/tcpwit_lab"], ""))


if __name__ == "__main__":
    unittest.main()
