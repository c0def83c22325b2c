#!/usr/bin/env python3
"""Compares the verdicts of case files with the expected ones. `./test cases` calls this.

    tools/cases.py [PATTERN]

The cases are those of crates/test_cases/data whose names contain PATTERN, or all. They are judged by
`checker` alone, which is built without proofs from the sources as they are, and kept in .built/
until one changes. `test_cases` checks each case in more ways, and takes longer to build. The status
is 1 if a verdict isn't the expected one.
"""
import os
import shutil
import subprocess
import sys
import tempfile

from unproved import TOP, build, crates_of, is_current, need_toolchain

DATA = f"{TOP}/crates/test_cases/data"
BUILT = f"{TOP}/.built/cases"
# What a build doesn't read.
LEFT_OUT = shutil.ignore_patterns("data", "must-fail", "out", "proofs")
# Prints a case file's answer for each name that it reads, as `tcpwit check` does.
PROGRAM = """//! Judges case files, whose names standard input has.
#![tactic(auto)]

use checker::{CaseFault, check_case};
use line_fields::TextFault;
use std::alloc::Global;
use std::{fs, io};

fn main(rt: HostRuntime) -> io::Result<()> {
    for name in rt.lines(rt.alloc()) {
        let name = name?;
        let case = fs::read(&rt, name.as_str())?;
        let answer = answer_of(rt.alloc(), case.as_slice())?;
        println!(rt; "{answer}")?;
    }
    Ok(())
}

fn answer_of(alloc: Global, case: &[u8]) -> io::Result<String> {
    let answer = match check_case(alloc, case) {
        Ok(verdict) => format!(in alloc; "{verdict}")?,
        Err(CaseFault::Trace(fault)) => fault_of(alloc, "trace", &fault)?,
        Err(CaseFault::Witness(fault)) => fault_of(alloc, "witness", &fault)?,
        Err(CaseFault::Read | CaseFault::OutOfMemory) => String::from_str(alloc, "bad memory")?,
    };
    Ok(answer)
}

fn fault_of(alloc: Global, text: &str, fault: &TextFault) -> io::Result<String> {
    let (span, kind) = (fault.span, fault.kind.name());
    let answer = format!(in alloc; "bad {text} {} {} {} {kind}", span.line, span.start, span.stop)?;
    Ok(answer)
}
"""


def build_program():
    """Builds the program in a copy of the crates that it needs. It runs for seconds, so it isn't optimized."""
    need_toolchain("cases")
    with tempfile.TemporaryDirectory() as folder:
        needed = crates_of("checker")
        for name in needed:
            shutil.copytree(f"{TOP}/crates/{name}", f"{folder}/crates/{name}", ignore=LEFT_OUT)
        os.makedirs(f"{folder}/crates/cases/src")
        with open(f"{folder}/crates/cases/src/main.rt", "w", encoding="utf-8") as file:
            file.write(PROGRAM)
        with open(f"{TOP}/crates.txt", encoding="utf-8") as table:
            rows = [line for line in table if needed.intersection(line.partition(":")[0].split()[:1])]
        with open(f"{folder}/crates.txt", "w", encoding="utf-8") as table:
            table.writelines([*rows, "cases: checker line_fields\n"])
        build("cases", BUILT, folder, "-O0")


def expected(pattern):
    """The names that contain a pattern, each with the expected answer."""
    with open(f"{DATA}/expected.txt", encoding="utf-8") as file:
        for line in file:
            name, answer = line.rstrip("\n").split("\t")
            if pattern in name:
                yield name, answer


def main():
    if sys.argv[1:2] == ["--help"]:
        print(__doc__.strip())
        return
    if len(sys.argv) > 2:
        sys.exit(__doc__)
    if not is_current(BUILT, "checker"):
        build_program()
    wanted = list(expected("".join(sys.argv[1:])))
    names = "".join(f"{name}.case\n" for name, _ in wanted)
    done = subprocess.run([BUILT], cwd=DATA, input=names, stdout=subprocess.PIPE, text=True)
    found = done.stdout.splitlines()
    pairs = zip(wanted, found)
    wrong = [f"{name}: wanted {answer}, found {got}" for (name, answer), got in pairs if got != answer]
    print(*wrong, f"{len(found)} of {len(wanted)} cases judged, {len(wrong)} answers differ", sep="\n")
    sys.exit(1 if wrong or done.returncode or len(found) < len(wanted) else 0)


if __name__ == "__main__":
    main()
