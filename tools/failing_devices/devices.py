"""Inputs and outputs that fail: closed or full ones, directories, missing files, a reader that ends early."""
import os
import subprocess
import tempfile

BAD_DEVICE = "bad device\n"


def shell(program, words, redirections, folder):
    """Runs the program with redirections of the shell. Returns its output, its error output and its status."""
    script = f'exec "$0" "$@" {redirections}'
    done = subprocess.run(["sh", "-c", script, program, *words], capture_output=True, cwd=folder, timeout=60,
                          stdin=subprocess.DEVNULL)
    return done.stdout.decode(), done.stderr.decode(), done.returncode


def gone(program, words, text, taken):
    """Runs the program while the reader of its output reads this many bytes and ends. Returns the bytes read, and the
    rest."""
    reader, writer = os.pipe()
    output = open(reader, "rb")
    if taken == 0:
        output.close()
    # The input is no pipe: `many` writes answers before it has read all, so it would wait for a reader of its output.
    with tempfile.TemporaryFile() as source:
        source.write(text)
        source.seek(0)
        child = subprocess.Popen([program, *words], stdin=source, stdout=writer, stderr=subprocess.PIPE)
    os.close(writer)
    took = output.read(taken) if taken else b""
    output.close()
    error = child.stderr.read()
    child.stderr.close()
    return took.decode(), error.decode(), child.wait(timeout=60)


def ends(has_record):
    """The trials: a name, the arguments, the redirections, and the expected output and status."""
    files = ["check", "--trace", "case.trace", "--witness", "case.witness"]
    segment = ["segment", "0fa00050ffffffff000000005002ffff00000000"]
    many = ["many", "--workers", "2"]
    record = ["record", "--rounds", "2", "--lose", "0"]
    yes, shown = "yes 18 13\n", "src 4000 dst 80 seq 4294967295 ack 0 flags S wnd 65535 mss - len 0 first 0\n"
    commands = [(["check"], "< case", yes), (many, "< case", yes), (files, "", yes), (segment, "", shown),
                (["chck"], "", "bad usage\n"), (record, "", None)]
    for words, given, line in commands:
        if words == record and not has_record:
            continue
        if line is not None:
            yield words, given, line, 3 if line == "bad usage\n" else 0
        for output in ("> /dev/full", ">&-", "> /dev/null >&-", "1< case"):
            yield words, f"{given} {output}", "", 5
    for words in (["check"], many):
        for given in ("< .", "<&-", "0> new"):
            yield words, given, BAD_DEVICE, 5
            yield words, f"{given} > /dev/full", "", 5
    missing = [(name, "case.witness") for name in (".", "none", "", "x" * 300, "x/" * 5000, "case/x", "loop")]
    for trace, witness in [*missing, ("case.trace", "."), ("case.trace", "none"), ("case.trace", "")]:
        yield ["check", f"--trace={trace}", f"--witness={witness}"], "", BAD_DEVICE, 5
    yield files, "<&-", yes, 0
    yield files, "<&- >&-", "", 5
    yield ["check", "--trace", "/dev/stdin", "--witness", "case.witness"], "< case.trace", yes, 0


def tried_devices(program, cases, folder):
    """The number of runs, and the wrong ones, as texts."""
    with open(os.path.join(cases, "examples", "handshake_and_five_bytes.case"), "rb") as file:
        text = file.read()
    trace, witness = text.split(b"witness 1\n", 1)
    for name, part in (("case", text), ("case.trace", trace), ("case.witness", b"witness 1\n" + witness)):
        with open(os.path.join(folder, name), "wb") as file:
            file.write(part)
    os.symlink("loop", os.path.join(folder, "loop"))
    has_record = subprocess.run([program, "record", "--rounds", "1", "--lose", "0"],
                                capture_output=True).stdout != b"bad usage\n"
    runs, wrong = 0, []
    for words, redirections, output, status in ends(has_record):
        found = shell(program, words, redirections, folder)
        runs += 1
        if found != (output, "", status):
            wrong.append(f"{words} {redirections}: {found} instead of {(output, '', status)}")
    for name in ("case", "case.trace", "case.witness"):
        with open(os.path.join(folder, name), "rb") as file:
            if file.read() != {"case": text, "case.trace": trace, "case.witness": b"witness 1\n" + witness}[name]:
                wrong.append(f"{name} was changed")
    for words, given, taken in ((["check"], text, 0), (["many", "--workers", "2"], (text + b"end\n") * 20_000, 0),
                                (["many", "--workers", "2"], (text + b"end\n") * 20_000, 15),
                                (["segment", "00"], b"", 0)):
        took, error, status = gone(program, words, given, taken)
        runs += 1
        if (error, status) != ("", 5) or took != "yes 18 13\nyes 18 13\n"[:taken]:
            wrong.append(f"{words}, after {taken} bytes of the output were read: {took!r} {error!r} {status}")
    return runs, wrong
