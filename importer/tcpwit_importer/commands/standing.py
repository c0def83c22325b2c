"""A program that answers many texts, so that a small one doesn't need a process of its own."""
import subprocess

# The line after each text.
END = b"end\n"
# The programs that this process started, by their words.
running = {}


class Standing:
    """A program that reads texts, each ended by a line, and answers each with a line before it reads the next one."""

    def __init__(self, words, environment):
        try:
            self.process = subprocess.Popen(words, stdin=subprocess.PIPE, stdout=subprocess.PIPE,
                                            stderr=subprocess.DEVNULL, env=environment)
        except OSError:
            # Whoever then runs it for a text alone says why it can't be run.
            self.process = None

    def answer(self, lines):
        """The line that answers these lines; None from the first text on that it doesn't answer."""
        if self.process is None:
            return None
        try:
            self.process.stdin.writelines(map(str.encode, lines))
            self.process.stdin.write(END)
            self.process.stdin.flush()
            line = self.process.stdout.readline()
        except BrokenPipeError:
            line = b""
        except BaseException:
            self.end()
            raise
        if line.endswith(b"\n"):
            return line
        self.end()
        return None

    def end(self):
        """Ends the program."""
        process, self.process = self.process, None
        if process is None:
            return
        process.kill()
        process.stdout.close()
        process.wait()
        try:
            process.stdin.close()
        except BrokenPipeError:
            # The rest of a text that it didn't read.
            pass


def answer_of(words, environment, lines):
    """The answer of this process's program with these words, which is started if it isn't running yet."""
    key = tuple(words)
    if key not in running:
        running[key] = Standing(words, environment)
    return running[key].answer(lines)


def end_all():
    """Ends all programs that this process started."""
    while running:
        running.popitem()[1].end()
