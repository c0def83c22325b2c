"""The commands of the built program that the sweeps in this folder run."""
import os


def commands(cases, folder):
    """The commands to sweep: a name, the arguments and the standard input."""
    expected = dict(line.rstrip("\n").split("\t") for line in open(os.path.join(cases, "expected.txt")))

    def text(name):
        with open(os.path.join(cases, name + ".case"), "rb") as file:
            return file.read()

    names = ["examples/handshake_and_five_bytes", "examples/two_threads", "worked-second-child-with-extra-1",
             "worked-five-thousand-bytes-past-the-congestion-window",
             "text-a-fault-of-the-trace-before-one-of-the-witness"]
    found = {}
    for name in names:
        found["check " + name] = (["check"], text(name)), expected[name]
    # A fault that comes long before the end.
    faulty = text(names[0]).replace(b" listen ", b" listne ") * 20
    found["check a fault in line 7"] = (["check"], faulty), "bad trace 7 7 13 field"
    for name in names[:2]:
        trace, witness = text(name).split(b"witness ", 1)
        paths = os.path.join(folder, "trace"), os.path.join(folder, "witness")
        paths = tuple(path + str(len(found)) for path in paths)
        for path, part in zip(paths, (trace, b"witness " + witness)):
            with open(path, "wb") as file:
                file.write(part)
        found["two files " + name] = (["check", "--trace", paths[0], "--witness", paths[1]], b""), expected[name]
    joined = b"".join(text(name) + b"end\n" for name in names[:3])
    lines = "\n".join(expected[name] for name in names[:3])
    for workers in ("1", "2", "8"):
        found["many " + workers] = (["many", "--workers", workers], joined), lines
    hex_text = "00500fa000000064ffffffff6012ffff00000000020403e8"
    shown = "src 80 dst 4000 seq 100 ack 4294967295 flags AS wnd 65535 mss 1000 len 0 first 101"
    found["segment"] = (["segment", hex_text], b""), shown
    found["segment of no hex"] = (["segment", "x"], b""), "bad segment hex"
    found["usage"] = (["chck"], b""), "bad usage"
    for rounds, lose in (("2", "3"), ("3", "0")):
        found[f"record {rounds} {lose}"] = (["record", "--rounds", rounds, "--lose", lose], b""), None
    return found
