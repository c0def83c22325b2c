#!/usr/bin/env python3
"""Runs the built program with arguments that aren't UTF-8, are empty, very long or very many, and with file names of
all kinds.

    python3 tools/words.py PROGRAM

`rows` and `named` have the expected output and status of each run. Differences are printed; the last line has the
counts, and the exit status is 1 if anything differed.
"""
import os
import subprocess
import sys
import tempfile

USAGE = b"bad usage\n", 3
DEVICE = b"bad device\n", 5
HEX = b"bad segment hex\n", 2
YES = b"yes 0 0\n", 0
# The longest argument that Linux passes to a program, without its NUL.
LONGEST_WORD = 131_071
SYN = b"0fa00050ffffffff000000005002ffff00000000"
SYN_LINE = b"src 4000 dst 80 seq 4294967295 ack 0 flags S wnd 65535 mss - len %d first 0\n"
TRACE = b"trace 1\nskew 0\nmsl 1\ngrain 0\nminrto 0\nextra 0\n"
WITNESS = b"witness 1\n"


def rows():
    """Arguments, with the expected output and status."""
    odd = [b"\xff", b"\xc3", b"\xed\xa0\x80", b"\xc0\xaf", b"\xf4\x90\x80\x80", "é".encode(), "\u202e".encode(),
           b"\x01", b"\n", b" "]
    yield [], USAGE
    for word in [b"", *odd, b"c" * LONGEST_WORD, b"\xff" * LONGEST_WORD]:
        yield [word], USAGE
        yield [b"check", word], USAGE
        yield [word, b"check"], USAGE
        yield [b"check" + word[:1000], b"segment"], USAGE
        yield [b"many", b"--workers", word], USAGE
        if len(word) < LONGEST_WORD:
            yield [b"many", b"--workers=" + word], USAGE
            yield [b"many", b"--workers", b"2" + word], USAGE if word else (b"", 0)
        if word:
            yield [b"segment", word], HEX
            yield [b"segment", word, word], USAGE
    for word in odd:
        yield [b"segment", SYN[:-2] + word], HEX
        yield [b"segment", word + SYN], HEX
        yield [b"segment", b"-" + word], USAGE
    yield [b"segment", b""], (b"bad segment short\n", 2)
    yield [b"segment", SYN + b"00" * 65_495], (SYN_LINE % 65_495, 0)
    yield [b"segment", SYN + b"00" * 65_496], (b"bad segment too-long\n", 2)
    yield [b"segment", b"0" * LONGEST_WORD], HEX
    yield [b"many", b"--workers", b"0" * (LONGEST_WORD - 1) + b"2"], (b"", 0)
    yield [b"many", b"--workers", b"1" * LONGEST_WORD], USAGE
    for count in (3, 1_000, 80_000):
        for word in (b"", b"check", b"segment", b"\xff"):
            yield [word] * count, USAGE
        yield [b"check", *[b"--"] * count], USAGE
        yield [b"many", *[b"--workers=2"] * count], USAGE


# Names of files that exist.
NAMES = [b"case", b"a b", "é".encode(), "日本".encode(), b"a=b", b"=", b"-", b"-dash", b"--trace", b"?", b"??",
         b"new\nline", b"n" * 240, b"./a b"]


def option(name, value):
    """Both spellings of an option; for a value that begins with a dash, there is only one."""
    return [[name + b"=" + value]] if value.startswith(b"-") else [[name + b"=" + value], [name, value]]


def named():
    """The names of a trace and a witness, with the expected output and status."""
    for name in NAMES:
        yield name, name, YES
    # the files `?` and `??` exist: a name that isn't text must not open them
    for name in (b"\xff", b"\xc3\xa9\xff", b"\xc3"):
        yield name, b"case", USAGE
        yield b"case", name, USAGE
    for name in (b"", b"none", "ü".encode(), b"n" * 256, b"n/" * 2_048, b"d" * 60_000, b".", b"case.trace/x"):
        yield name, b"case", DEVICE
        yield b"case", name, DEVICE


def runs():
    yield from ((words, wanted) for words, wanted in rows())
    for trace, witness, wanted in named():
        ends = [b"" if wanted == YES or name == b"case" else None for name in (trace, witness)]
        trace = trace + b".trace" if ends[0] is not None else trace
        witness = witness + b".witness" if ends[1] is not None else witness
        for first in option(b"--trace", trace):
            for second in option(b"--witness", witness):
                yield [b"check", *first, *second], wanted
                yield [b"check", *second, *first], wanted
        yield [b"check", b"--trace=" + trace], USAGE
        yield [b"check", b"--trace=" + trace, b"--witness=" + witness, b"--"], USAGE
        yield [b"check", b"--trace=" + trace, b"--trace=" + witness], USAGE
        yield [b"check", b"--witness=" + witness, b"--trace=" + trace, b"--witness=" + witness], USAGE


def main():
    if "--help" in sys.argv:
        print(__doc__.strip())
        return
    program = os.path.abspath(sys.argv[1])
    count = differing = 0
    with tempfile.TemporaryDirectory() as folder:
        for name in [*NAMES[:-1], b"\xff", b"\xc3"]:
            for end, text in ((b".trace", TRACE), (b".witness", WITNESS)):
                with open(os.path.join(folder.encode(), name + end), "wb") as file:
                    file.write(text)
        for words, wanted in runs():
            done = subprocess.run([program, *words], stdin=subprocess.DEVNULL, capture_output=True, cwd=folder,
                                  timeout=60)
            count += 1
            if (done.stdout, done.returncode, done.stderr) != (*wanted, b""):
                differing += 1
                print([word[:40] for word in words[:6]], done.stdout[:80], done.stderr[:80], done.returncode, "and not",
                      wanted)
    print(f"{count} runs, {differing} differing")
    sys.exit(1 if differing else 0)


if __name__ == "__main__":
    main()
