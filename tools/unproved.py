#!/usr/bin/env python3
"""Builds a program of this repository without proving it, and keeps the result.

    python3 tools/unproved.py NAME OUT [-O0]
    python3 tools/unproved.py --object NAME CALLS OUT
    python3 tools/unproved.py --keep NAME ..

NAME is a crate with a `main`, or a program in tests/, and OUT the file of the program. With --object, NAME is a static
library, CALLS a file of tests that call each function that it exports, and OUT an object file with these functions.
With --keep, each program is built as `./tcpwit` builds it, unless a current one exists, and its path is printed. Since
`tcpwit` and `tcpwit_lab` share most of their code, --keep builds both as one program, which has two names and chooses
by its name. So it does with the programs in tests/, at the same time. The status is 127 if there is no program and none
can be built.

`rt try` builds a module of the whole program, compiles and runs it, and keeps nothing. This script takes the module
that `rt try` passes to its compiler, and compiles and links it with the toolchain's own tools. The module has a
run-time check instead of each proof: if one fails, the program stops instead of continuing with a wrong value. The
script depends on the folder layout of the November 2026 toolchain.
"""
import concurrent.futures
import contextlib
import fcntl
import functools
import glob
import os
import pwd
import re
import shutil
import subprocess
import sys
import tempfile
import time

TOP = os.path.dirname(os.path.dirname(os.path.abspath(__file__)))
# The crates, and the programs in tests/, each with the libraries that it uses.
TABLES = (f"{TOP}/crates.txt", f"{TOP}/tests/programs.txt")
FLAGS = """--target=x86_64-unknown-linux-gnu -march=x86-64 -ffunction-sections -fdata-sections --no-default-config
 -no-canonical-prefixes -fintegrated-cc1 -c -x ir -fPIE""".split()
# How many seconds pass between two lines that report that a build goes on.
PERIOD = 15
# The status if there is no program. `tcpwit` itself never ends with it, so it can't be mistaken for a verdict.
NO_PROGRAM = 127
INSTALL = ("  Without the toolchain, install the Debian package, which contains the proved programs "
           "(packaging/README.md).\n"
           "  With the toolchain, add its folder `bin` to PATH. sudo may use another PATH, so run ./{name} once "
           "without sudo.")
# The programs that are built as one, and the file of its `main`.
JOINED = {
    "both": (("tcpwit", "tcpwit_lab"), "tools/both.rt.txt"),
    "tests": (("test_cases", "test_runs", "bench_jobs"), "tests/tests.rt.txt"),
}
# Saves the module of the whole program, and stops `rt try` there. The first module that `rt try` compiles is a small
# one.
KEEPER = """#!/bin/sh
for word in "$@"; do
  case "$word" in *.bc) if [ "$(stat -c %s "$word")" -gt 100000 ]; then cp "$word" {kept}; exit 1; fi;; esac
done
exec {clang} "$@"
"""
# A test of `test_runs`. The toolchain gives handles only to `main` and to tests, so as a function like others, it takes
# them.
TEST = re.compile(r"(?ms)^#\[test\]\nfn (\w+)\(rt: HostRuntime\) (\{.*?^\})")
TAKER = """pub(crate) fn {name}<H: std::process::Abort + std::sync::Wait + std::thread::Threads + Sync>(
    {more}rt: &H,
    alloc: std::alloc::Global,
)"""
# The file of `test_runs` that has all its tests.
ALL = """//! All tests.

// Runs the test of a name, and returns whether there is one. If it fails, the program stops.
{taker} -> bool {{
    match name {{
{arms}        _ => return false,
    }}
    true
}}
"""
# `rt try` also begins a check, which takes as long as the translation and only looks for reserved names. A build needs
# none.
NO_CHECK = """#!/bin/sh
exit 0
"""


def stop(cause):
    """Ends, since there is no program."""
    print(cause, file=sys.stderr)
    sys.exit(NO_PROGRAM)


def announce(text):
    """Prints a line on standard error, and also on the terminal if standard error goes elsewhere, as with
    `2>&1 | tail`, which shows nothing until the end."""
    print(text, file=sys.stderr, flush=True)
    if not sys.stderr.isatty():
        with contextlib.suppress(OSError), open("/dev/tty", "w", encoding="utf-8") as terminal:
            print(text, file=terminal)


def need_toolchain(name):
    """Ends if a program can't be built."""
    if shutil.which("rt") is None:
        stop(f"{name} isn't built, and the Rattle toolchain, whose command is rt, isn't in PATH.\n"
             f"{INSTALL.format(name=name)}")


def watched(step, words, **options):
    """Runs a program and returns its result. Until it ends, standard error reports the step and its time."""
    begun = time.monotonic()
    with subprocess.Popen(words, **options) as child:
        while True:
            try:
                out, err = child.communicate(timeout=PERIOD)
                return subprocess.CompletedProcess(words, child.returncode, out, err)
            except subprocess.TimeoutExpired:
                print(f"  {step}: {time.monotonic() - begun:.0f} s", file=sys.stderr, flush=True)
            except BaseException:
                child.kill()
                raise


def kit():
    """The folder of the toolchain."""
    return os.path.dirname(os.path.realpath(subprocess.check_output(["rt", "doc"], text=True).strip()))


def write_script(path, text):
    """Writes a script that can be run."""
    os.makedirs(os.path.dirname(path), exist_ok=True)
    with open(path, "w", encoding="utf-8") as file:
        file.write(text)
    os.chmod(path, 0o755)


def kit_beside(folder, kept):
    """A folder like the toolchain's, whose compiler saves the module that it gets, and whose checker does nothing."""
    whole = kit()
    for at in glob.glob(f"{whole}/*") + glob.glob(f"{whole}/bin/*") + glob.glob(f"{whole}/toolchain/*"):
        to = os.path.join(folder, os.path.relpath(at, whole))
        if to.endswith(("/bin", "/toolchain")):
            os.makedirs(to, exist_ok=True)
        elif to.endswith(("/rt", "/rtlib.py")):
            os.makedirs(os.path.dirname(to), exist_ok=True)
            shutil.copy(at, to)
        elif to.endswith("/bin/rattle"):
            write_script(to, NO_CHECK)
        else:
            os.makedirs(os.path.dirname(to), exist_ok=True)
            os.symlink(at, to)
    for at in glob.glob(f"{whole}/toolchain/bin/*"):
        to = os.path.join(folder, "toolchain/bin", os.path.basename(at))
        if not to.endswith("/clang"):
            os.symlink(at, to)
    write_script(f"{folder}/toolchain/bin/clang", KEEPER.format(kept=kept, clang=f"{whole}/toolchain/bin/clang"))


def module_of(name, folder, top, *words):
    """The module of a program of the repository `top`, as a file in the folder. The words go to `rt try`."""
    kept = f"{folder}/kept.bc"
    kit_beside(f"{folder}/kit", kept)
    pipes = {"stdin": subprocess.DEVNULL, "stdout": subprocess.PIPE, "stderr": subprocess.PIPE}
    tried = watched("step 1 of 2, translating", [f"{folder}/kit/bin/rt", "try", name, *words],
                    cwd=f"{top}/crates/{name}", text=True, **pipes)
    if not os.path.exists(kept):
        stop(f"{tried.stdout}{tried.stderr}`rt try` made no module of {name}")
    return kept


def sources_in_tests(name):
    """The sources of a program in tests/. `rt ci` would refuse them as .rt files."""
    return sorted(glob.glob(f"{TOP}/tests/{name}/*.rt.txt"))


def tests():
    """The tests of `test_runs`, each by its module and its name."""
    for path in sources_in_tests("test_runs"):
        with open(path, encoding="utf-8") as file:
            for test in TEST.finditer(file.read()):
                yield f"{os.path.basename(path).removesuffix('.rt.txt')}::{test[1]}"


def copy_sources(top):
    """Copies the crates' sources to the repository `top`, and makes a crate of each program in tests/."""
    shutil.copytree(f"{TOP}/crates", f"{top}/crates", ignore=shutil.ignore_patterns("data", "must-fail", "out"))
    with open(f"{top}/crates.txt", "w", encoding="utf-8") as table:
        for path in TABLES:
            with open(path, encoding="utf-8") as file:
                table.write(file.read())
    for path in sources_in_tests("*"):
        name, file = os.path.relpath(path, f"{TOP}/tests").split(os.sep)
        os.makedirs(f"{top}/crates/{name}/src", exist_ok=True)
        shutil.copy(path, f"{top}/crates/{name}/src/{file.removesuffix('.txt')}")
    if os.path.isdir(f"{top}/crates/test_runs"):
        name_tests(f"{top}/crates/test_runs/src")


def name_tests(folder):
    """Makes the tests in these sources functions like others, and writes the file that runs each by its name."""
    for path in glob.glob(f"{folder}/*.rt"):
        change(path, lambda text: TEST.sub(as_function, text))
    arms = "".join(f'        "{test}" => crate::{test}(rt, alloc),\n' for test in tests())
    taker = TAKER.format(name="run_named", more="name: &str,\n    ")
    with open(f"{folder}/all.rt", "w", encoding="utf-8") as file:
        file.write(ALL.format(taker=taker, arms=arms))


def as_function(test):
    """A test as a function like others."""
    body = test[2].replace("&rt", "rt").replace("rt.alloc()", "alloc")
    return f"{TAKER.format(name=test[1], more='')} {body}"


def change(path, changed):
    """Changes the text of a file."""
    with open(path, encoding="utf-8") as file:
        text = changed(file.read())
    with open(path, "w", encoding="utf-8") as file:
        file.write(text)


def as_module(text, name):
    """The text of a program's file in a module of this name: without its `main`, and with the paths of its new
    place."""
    text = text.replace("#![tactic(auto)]\n", "").replace("crate::", f"crate::{name}::")
    return re.sub(r"(?ms)^fn main\(.*?^}\n", "", text)


def copy_joined(joined, top):
    """Copies the crates' sources to the repository `top`, and adds a crate of several programs."""
    copy_sources(top)
    names, main = JOINED[joined]
    root = f"{top}/crates/{joined}/src"
    os.makedirs(root)
    shutil.copy(f"{TOP}/{main}", f"{root}/main.rt")
    for name in names:
        shutil.copytree(f"{top}/crates/{name}/src", f"{root}/{name}")
        for path in glob.glob(f"{root}/{name}/**/*.rt", recursive=True):
            change(path, functools.partial(as_module, name=name))
        shutil.move(f"{root}/{name}/main.rt", f"{root}/{name}.rt")
    libraries = sorted({library for name in names for library in libraries_of()[name]})
    with open(f"{top}/crates.txt", "a", encoding="utf-8") as file:
        file.write(f"{joined}: {' '.join(libraries)}\n")


def copy_with_tests(name, calls, top):
    """Copies the crates' sources to the repository `top`, and adds these tests to one of them."""
    copy_sources(top)
    shutil.copy(calls, f"{top}/crates/{name}/src/tests.rt")
    with open(f"{top}/crates/{name}/src/lib.rt", "a", encoding="utf-8") as file:
        file.write("\n#[cfg(test)]\nmod tests;\n")


def exported(name, calls, text):
    """The module of the tests that call a static library, without their `main`, and with the functions that the library
    exports."""
    text = re.sub(r"(?m)^define i32 @main\(\)", "define internal i32 @tests_main()", text)
    for source in sorted(glob.glob(f"{TOP}/crates/{name}/src/**/*.rt", recursive=True)):
        with open(source, encoding="utf-8") as file:
            module = ".".join(os.path.relpath(source, f"{TOP}/crates/{name}/src")[:-3].split(os.sep))
            for function in re.findall(r'pub extern "C" fn (\w+)', file.read()):
                symbol = "::".join([name, *(part for part in module.split(".") if part != "lib"), function])
                head = re.search(rf'(?m)^define internal (.*) @"{symbol}"\((.*)\) #', text)
                if head is None:
                    stop(f"{calls} doesn't call {function}")
                result = re.sub(r"\b(noundef|zeroext) ", "", head[1])
                kinds = ", ".join(it.split()[0] for it in head[2].split(", ") if it)
                text += f'@{function} = alias {result} ({kinds}), ptr @"{symbol}"\n'
    return text


def build_object(name, calls, out):
    """Builds an object file that has what a static library exports. The tests in the file `calls` call each export."""
    need_toolchain(name)
    clang = f"{kit()}/toolchain/bin/clang"
    with tempfile.TemporaryDirectory() as folder:
        copy_with_tests(name, calls, f"{folder}/copy")
        module = module_of(name, folder, f"{folder}/copy", "--test")
        subprocess.run([clang, "-S", "-emit-llvm", "-Xclang", "-disable-llvm-passes", "-x", "ir", module, "-o",
                        f"{folder}/module.ll"], check=True)
        with open(f"{folder}/module.ll", encoding="utf-8") as file:
            text = exported(name, calls, file.read())
        with open(f"{folder}/module.ll", "w", encoding="utf-8") as file:
            file.write(text)
        words = [clang, *FLAGS, "-fPIC", "-O1", f"{folder}/module.ll", "-o", out]
        watched("step 2 of 2, optimizing", words).check_returncode()


def linked(objects, out):
    """Links a program from these objects, with the toolchain's linker and libraries."""
    whole = kit()
    lib = f"{whole}/toolchain/lib"
    before = [f"{lib}/{name}" for name in ("Scrt1.o", "crti.o", "crtbeginS.o")]
    libraries = [f"{whole}/c/libos_c.a", f"{whole}/c/liblibc_c.a"]
    libraries += [f"{lib}/{name}"
                  for name in ("libm.so.6", "libc.so.6", "libc_nonshared.a", "libgcc.a", "libgcc_s.so.1")]
    after = [f"{lib}/{name}" for name in ("crtendS.o", "crtn.o")]
    words = ["-pie", "--gc-sections", "-dynamic-linker", "/lib64/ld-linux-x86-64.so.2", "-o", out]
    subprocess.run([f"{whole}/toolchain/bin/ld.lld", *words, *before, *objects, *libraries, *after], check=True)


def build(name, out, top, level="-O1"):
    """Builds the program of a crate of the repository `top` as the file `out`. Without optimization (-O0), it builds
    sooner and runs 50 to 100 times slower."""
    need_toolchain(name)
    os.makedirs(os.path.dirname(os.path.abspath(out)), exist_ok=True)
    with tempfile.TemporaryDirectory() as folder:
        module = module_of(name, folder, top)
        compiled = watched("step 2 of 2, optimizing",
                           [f"{kit()}/toolchain/bin/clang", *FLAGS, level, module, "-o", f"{folder}/program.o"])
        compiled.check_returncode()
        linked([f"{folder}/program.o"], f"{folder}/program")
        beside = f"{out}.{os.getpid()}"
        shutil.move(f"{folder}/program", beside)
        os.replace(beside, out)


def libraries_of():
    """The libraries of each crate of the repository, and of each program in tests/."""
    rows = []
    for path in TABLES:
        with open(path, encoding="utf-8") as file:
            rows += [line.split(":") for line in file if ":" in line and not line.startswith("#")]
    return {words.split()[0]: names.split() for words, names in rows}


def crates_of(name):
    """The crate and the crates of the repository that it depends on."""
    below = libraries_of()
    found, left = set(), [name]
    while left:
        crate = left.pop()
        if crate in below and crate not in found:
            found.add(crate)
            left += below[crate]
    return found


def newest_source(name):
    """When a source of the crate, or of one that it depends on, was last written."""
    sources = [path for crate in crates_of(name)
               for path in glob.glob(f"{TOP}/crates/{crate}/src/**/*.rt", recursive=True) + sources_in_tests(crate)]
    return max(os.stat(path).st_mtime for path in sources)


def is_current(program, name):
    """Whether a program exists, and no source of its crate is newer."""
    return os.path.exists(program) and newest_source(name) < os.stat(program).st_mtime


def kept(name):
    """The program of a crate: the proved one if it exists, else an unproved one, built if it isn't cached."""
    proved, unproved = f"{TOP}/crates/{name}/out/{name}", f"{TOP}/.built/{name}"
    for program in (proved, unproved):
        if is_current(program, name):
            return program
    need_toolchain(name)
    try:
        build_once(name, unproved)
    except OSError as fault:
        stop(f"{name} can't be built: {fault.filename}: {fault.strerror}")
    return unproved


def joined_with(name):
    """The program that has this name and others, and all its names."""
    for joined, (names, _) in JOINED.items():
        if name in names:
            return joined, names
    return stop(f"{name} is none of the programs that are kept")


def build_joined(joined, names):
    """Builds programs as one, which has their names."""
    with tempfile.TemporaryDirectory() as folder:
        copy_joined(joined, f"{folder}/copy")
        build(joined, f"{TOP}/.built/{joined}", f"{folder}/copy")
    for name in names:
        beside = f"{TOP}/.built/{name}.{os.getpid()}"
        os.link(f"{TOP}/.built/{joined}", beside)
        os.replace(beside, f"{TOP}/.built/{name}")
    os.remove(f"{TOP}/.built/{joined}")


def build_once(name, program):
    """Builds a program, unless another process has built it by then."""
    os.makedirs(os.path.dirname(program), exist_ok=True)
    joined, names = joined_with(name)
    with open(f"{TOP}/.built/{joined}.lock", "w", encoding="utf-8") as file:
        fcntl.flock(file, fcntl.LOCK_EX)
        if is_current(program, name):
            return
        others = " and ".join(other for other in names if other != name)
        announce(f"{name}: building it without proofs, once, as {program}, and {others} with it; this takes about four "
                 "minutes of one processor")
        build_joined(joined, names)


def leave_sudo():
    """Continues as the user who called sudo, if they own the repository: otherwise, they couldn't build the program
    again."""
    owner = os.stat(TOP).st_uid
    if os.geteuid() == 0 and os.environ.get("SUDO_UID") == str(owner):
        entry = pwd.getpwuid(owner)
        os.initgroups(entry.pw_name, entry.pw_gid)
        os.setgid(entry.pw_gid)
        os.setuid(owner)
        os.environ["HOME"] = entry.pw_dir


def main():
    words = sys.argv[1:]
    if words == ["--help"]:
        print(__doc__.strip())
    elif words[:1] == ["--object"] and len(words) == 4:
        build_object(*words[1:])
    elif words[:1] == ["--keep"] and len(words) > 1:
        leave_sudo()
        with concurrent.futures.ThreadPoolExecutor(len(words)) as pool:
            for program in pool.map(kept, words[1:]):
                print(program)
    elif len(words) in (2, 3):
        name, out, *level = words
        with tempfile.TemporaryDirectory() as folder:
            copy_sources(f"{folder}/copy")
            build(name, out, f"{folder}/copy", *level)
    else:
        sys.exit(__doc__)


if __name__ == "__main__":
    main()
