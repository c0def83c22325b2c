"""Tests running a program on input that is made meanwhile."""
import os
import signal
import tempfile
import unittest

from tcpwit_importer.commands import spawned

LARGE = 3 << 16


def shell(text, lines=()):
    """Runs a shell's commands."""
    return spawned.run(["/bin/sh", "-c", text], lines, dict(os.environb))


class Spawned(unittest.TestCase):
    def test_outputs_and_status(self):
        self.assertEqual(shell("cat; echo wrong >&2; exit 3", ["one\n", "two\n"]), (b"one\ntwo\n", b"wrong\n", 3))
        self.assertEqual(shell("kill -9 $$"), (b"", b"", -signal.SIGKILL))
        self.assertEqual(shell("echo $WORD", ()).out, b"\n")
        self.assertEqual(spawned.run(["/bin/sh", "-c", "echo $WORD"], (), {b"WORD": b"here"}).out, b"here\n")

    def test_more_output_than_a_pipe_holds_before_the_input_is_read(self):
        print_much = f"head -c {LARGE} /dev/zero"
        done = shell(f"{print_much}; {print_much} >&2; wc -c", ["x" * LARGE] * 3)
        self.assertEqual((done.out[:LARGE], done.error), (bytes(LARGE), bytes(LARGE)))
        self.assertEqual(int(done.out[LARGE:]), 3 * LARGE)

    def test_a_program_that_reads_nothing(self):
        self.assertEqual(shell("echo said; exit 2", ["x" * LARGE] * 3), (b"said\n", b"", 2))

    def test_a_program_that_is_missing(self):
        before = os.listdir("/proc/self/fd")
        with self.assertRaises(FileNotFoundError):
            spawned.run(["/missing/program"], (), {})
        self.assertEqual(os.listdir("/proc/self/fd"), before)

    def test_an_error_of_the_input_ends_the_program(self):
        with tempfile.TemporaryDirectory() as folder:
            def lines():
                yield "x" * LARGE
                while not os.path.exists(f"{folder}/number"):
                    yield "x"
                raise ValueError("here")
            with self.assertRaisesRegex(ValueError, "here"):
                shell(f"echo $$ > {folder}/new; mv {folder}/new {folder}/number; cat > /dev/null; exec sleep 60",
                      lines())
            with open(f"{folder}/number", encoding="ascii") as file, self.assertRaises(ProcessLookupError):
                os.kill(int(file.read()), 0)


if __name__ == "__main__":
    unittest.main()
