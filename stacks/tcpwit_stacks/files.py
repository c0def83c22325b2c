"""Files and standard output. Errors name the file."""
import contextlib
import errno
import os
import stat
import sys

from .texts import shown

# The folder of the suite.
TOP = os.path.dirname(os.path.dirname(os.path.realpath(__file__)))


def stop(cause):
    """Ends with an error."""
    print(shown(cause), file=sys.stderr)
    sys.exit(2)


def say(text):
    """Prints a line, at once."""
    try:
        print(text, flush=True)
    except OSError as fault:
        # Discard what is left in the buffer; flushing it at exit would fail again.
        os.dup2(os.open(os.devnull, os.O_WRONLY), sys.stdout.fileno())
        raise OSError(fault.errno, fault.strerror, "standard output") from fault


@contextlib.contextmanager
def naming(path):
    """Adds this file's name to system errors, which lack it when reading or writing fails."""
    try:
        yield
    except OSError as fault:
        raise OSError(fault.errno, fault.strerror, path) from fault


def read(path):
    """The text of a file, with control characters escaped."""
    try:
        with naming(path), open(path, encoding="utf-8") as file:
            return shown(file.read(), "\n\t")
    except UnicodeDecodeError:
        stop(f"{path} isn't text")


def write(path, text):
    """Writes a file."""
    with naming(path), open(path, "w", encoding="utf-8") as file:
        file.write(text)


def can_be_written_again(path):
    """Whether a report can be rewritten after each scenario: a file can, a pipe or a terminal can't."""
    return not os.path.exists(path) or stat.S_ISREG(os.stat(path).st_mode)


def try_to_write(path):
    """Checks that a file can be written, before anything runs. Doesn't leave a new file."""
    if os.path.isdir(path) or can_be_written_again(path):
        is_new = not os.path.lexists(path)
        with naming(path), open(path, "a"):
            pass
        if is_new:
            os.remove(path)


def why_no_file(path):
    """The system's reason why no file has this name; empty if one exists that isn't a folder."""
    try:
        os.stat(path)
    except OSError as fault:
        return fault.strerror
    return os.strerror(errno.EISDIR) if os.path.isdir(path) else ""
