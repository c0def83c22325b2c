"""Runs a program on input that is made meanwhile, at little cost: each of thousands of connections needs one."""
import os
import signal
from typing import NamedTuple

# How many bytes of the input are written at once.
AT_ONCE = 1 << 16


class Done(NamedTuple):
    """What a program printed on both outputs, and its status, which is negative if a signal ended it."""
    out: bytes
    error: bytes
    status: int


def run(words, lines, environment):
    """Runs a program, named by its path, with these lines as its input. Its outputs are files in memory: pipes could
    become full while the input is written."""
    out, error = os.memfd_create("out"), os.memfd_create("error")
    try:
        status = _status(words, lines, environment, (out, error))
        return Done(_content(out), _content(error), status)
    finally:
        os.close(out)
        os.close(error)


def _status(words, lines, environment, outputs):
    """The status of a program. It's killed if an error or a signal ends the input early."""
    source, sink = os.pipe()
    with open(sink, "wb", AT_ONCE) as file:
        try:
            process = os.posix_spawn(words[0], words, environment, setsigdef=[signal.SIGPIPE], file_actions=[
                (os.POSIX_SPAWN_DUP2, given, number) for number, given in enumerate((source, *outputs))])
        finally:
            os.close(source)
        try:
            _write(file, lines)
            return os.waitstatus_to_exitcode(os.waitpid(process, 0)[1])
        except BaseException:
            os.kill(process, signal.SIGKILL)
            os.waitpid(process, 0)
            raise


def _write(file, lines):
    """Writes lines to a pipe and closes it. A program that has ended reads no more: its output says why."""
    try:
        file.writelines(map(str.encode, lines))
        file.close()
    except BrokenPipeError:
        pass


def _content(file):
    """The bytes of a file."""
    return os.pread(file, os.fstat(file).st_size, 0)
