#!/usr/bin/env python3
"""Builds a program without proving it, to count its instructions.

    python3 bench/stand_in.py OUT [--crate NAME] [--inline REGEX].. [--apart REGEX]..

The program that `rt try` builds is unsuitable for measuring: it is full of run-time checks that the proved program
doesn't have. This script uses the module that `rt try` passes to its compiler and removes those checks. It marks the
functions that the sources mark `#[inline(always)]` and those that match a REGEX (--inline: always inline them; --apart:
never), and optimizes the module like a proved program. The result needs 1 to 5 percent fewer instructions than the
proved program. Use it only to count them: if a proof is missing, its answers can be wrong. It takes two minutes. It
depends on the folder layout of the November 2026 toolchain.
"""
import argparse
import glob
import os
import re
import subprocess
import sys
import tempfile

sys.dont_write_bytecode = True
sys.path.insert(0, os.path.join(os.path.dirname(os.path.dirname(os.path.abspath(__file__))), "tools"))

from unproved import TOP, copy_sources, kit, module_of

FLAGS = """--target=x86_64-unknown-linux-gnu -march=x86-64 -mllvm -no-trap-after-noreturn -ffunction-sections
 -fdata-sections -mllvm -trap-unreachable -mllvm -no-x86-call-frame-opt -mllvm -disable-machine-licm
 -mllvm -disable-postra-machine-licm -mllvm -sink-common-insts=false --no-default-config -no-canonical-prefixes
 -fintegrated-cc1 -c -x ir -fPIE -O3 -Xclang -fmerge-functions -mllvm -mergefunc-use-aliases""".split()
# The calls of run-time checks.
CHECK = re.compile(r'  call void @(llvm\.(trap\(\)|memset\.p0\.i64\(ptr %\S+, i8 -86,)|"rattle-llvm-checks::)')
LIKE_PROVED = '"probe-stack"="inline-asm" "stack-probe-size"="3072" "target-cpu"="x86-64-v2"'


def marked(sources):
    """The functions that the sources mark, as the module names them."""
    for path in sources:
        crate, module = re.search(r"crates/(\w+)/src/([\w/]+)\.rt$", path).groups()
        holder = ""
        lines = open(path).read().split("\n")
        for line, after in zip(lines, lines[1:]):
            if impl := re.match(r"impl(?:<.*?>)? (?:(\w+) for )?(\w+)", line):
                holder = f"{impl[2]}{impl[1] or ''}::"
            if "#[inline(always)]" in line:
                name = re.search(r"fn (\w+)", after)[1]
                # A method is named by the module of its type.
                path_to = rf"(\w+::)+{holder}" if after.startswith(" ") else f"{module.replace('/', '::')}::"
                yield re.compile(rf"^{crate}::{path_to}{name}(::<|$)")


def without_tests(lines, inline, apart):
    for line in lines:
        if flag := re.match(r"  (%\S+) = load volatile i8, ptr @static\.\d+, align 1", line):
            line = f"  {flag[1]} = add i8 0, 0\n"
        elif CHECK.match(line):
            continue
        elif line.startswith("attributes #"):
            line = line.replace(" sanitize_address", "").replace('"frame-pointer"="all"', "")
            line = line.replace('"target-cpu"="x86-64" }', '"target-cpu"="x86-64-v2" }')
            line = re.sub(r"\{ +\}", "{ nounwind }", line)
        elif line.startswith("define "):
            name = re.search(r'@("[^"]*"|[^\s(]+)\(', line)[1].strip('"')
            for patterns, mark in ((inline, 9001), (apart, 9002)):
                if any(pattern.search(name) for pattern in patterns):
                    line = re.sub(r"\) #\d+ \{$", f") #{mark} {{", line)
        yield line
    yield (f"\nattributes #9001 = {{ alwaysinline nounwind {LIKE_PROVED} }}\n"
           f"attributes #9002 = {{ noinline nounwind {LIKE_PROVED} }}\n")


def main():
    words = argparse.ArgumentParser(description=__doc__.splitlines()[0])
    words.add_argument("out", metavar="OUT", help="the file of the built program")
    words.add_argument("--crate", metavar="NAME", default="tcpwit", help="the crate of the program (default: tcpwit)")
    words.add_argument("--inline", metavar="REGEX", action="append", type=re.compile, default=[],
                       help="always inline the functions that match; may be repeated")
    words.add_argument("--apart", metavar="REGEX", action="append", type=re.compile, default=[],
                       help="never inline the functions that match; may be repeated")
    words = words.parse_args()
    whole = kit()
    clang = f"{whole}/toolchain/bin/clang"
    with tempfile.TemporaryDirectory() as folder:
        copy_sources(f"{folder}/copy")
        kept = module_of(words.crate, folder, f"{folder}/copy")
        text = f"{folder}/kept.ll"
        subprocess.run([clang, "-x", "ir", kept, "-S", "-emit-llvm", "-Xclang", "-disable-llvm-passes", "-o", text],
                       check=True)
        inline = words.inline + list(marked(glob.glob(f"{TOP}/crates/*/src/**/*.rt", recursive=True)))
        with open(text) as lines, open(f"{folder}/plain.ll", "w") as plain:
            plain.writelines(without_tests(lines, inline, words.apart))
        subprocess.run([clang, *FLAGS, f"{folder}/plain.ll", "-o", f"{folder}/plain.o"], check=True)
        libraries = [f"{whole}/c/libos_c.a", f"{whole}/c/liblibc_c.a", "-lm", "-lpthread", "-ldl"]
        subprocess.run(["cc", "-pie", "-Wl,--gc-sections", "-o", words.out, f"{folder}/plain.o", *libraries],
                       check=True)


if __name__ == "__main__":
    main()
