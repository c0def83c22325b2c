"""Tests a program that answers many texts."""
import os
import unittest

from tcpwit_importer.commands.standing import Standing

LARGE = "x" * (3 << 16)
# Answers each text with its number of lines, and writes much if its first line asks for that.
COUNTING = """
count=0
while read -r line; do
  case $line in
    end) echo "$count"; count=0 ;;
    much) head -c 300000 /dev/zero | tr '\\0' y; count=$((count + 1)) ;;
    *) count=$((count + 1)) ;;
  esac
done
"""


class Answers(unittest.TestCase):
    def standing(self, text):
        """A shell that does this."""
        program = Standing(["/bin/sh", "-c", text], dict(os.environb))
        self.addCleanup(program.end)
        return program

    def is_running(self, number):
        """Whether a process is running."""
        return os.path.exists(f"/proc/{number}")

    def test_answers_come_in_order(self):
        program = self.standing(COUNTING)
        for count in (0, 1, 5, 1000, 2):
            self.assertEqual(program.answer(["line\n"] * count), f"{count}\n".encode())

    def test_a_long_answer(self):
        program = self.standing(COUNTING)
        self.assertEqual(program.answer(["much\n", "line\n"]), b"y" * 300000 + b"2\n")
        self.assertEqual(program.answer(["line\n"]), b"1\n")

    def test_a_program_that_ends(self):
        for text in ("exit 2", "echo half | tr -d '\\n'", "read line; echo one; exit 0"):
            program = self.standing(text)
            answers = [program.answer([LARGE + "\n"]) for _ in range(3)]
            self.assertEqual(answers[1:], [None, None], text)
            self.assertIn(answers[0], (None, b"one\n"))

    def test_a_program_that_is_missing(self):
        program = Standing(["/missing/program"], {})
        self.assertEqual([program.answer(["line\n"]), program.end()], [None, None])

    def test_an_error_of_the_text_ends_the_program(self):
        def lines():
            yield LARGE
            raise ValueError("here")
        program = self.standing("exec cat > /dev/null")
        number = program.process.pid
        with self.assertRaisesRegex(ValueError, "here"):
            program.answer(lines())
        self.assertFalse(self.is_running(number))
        self.assertIsNone(program.answer(["line\n"]))

    def test_its_end_leaves_no_process_and_no_file(self):
        before = os.listdir("/proc/self/fd")
        program = self.standing(COUNTING)
        number = program.process.pid
        program.answer(["line\n"])
        program.end()
        self.assertFalse(self.is_running(number))
        self.assertEqual(os.listdir("/proc/self/fd"), before)


if __name__ == "__main__":
    unittest.main()
