"""Files of a recording: reads them, also if gzip compressed them, and writes new ones."""
import contextlib
import gzip
import io
import os
import sys
import tempfile
import zlib

from .problem import Problem
from .progress import Part, of_file

MAGIC = b"\x1f\x8b"
# A larger trace that is to be printed is kept in a temporary file until it is complete.
IN_MEMORY = 10_000_000


@contextlib.contextmanager
def opened(name, remedy, text=False):
    """A file to be read, decompressed if gzip compressed it."""
    try:
        with open(name, "rb") as raw, of_file(f"reading {name}", raw):
            file = gzip.GzipFile(fileobj=raw) if raw.peek(2)[:2] == MAGIC else raw
            yield io.TextIOWrapper(file, encoding="utf-8", errors="surrogateescape") if text else file
    except (gzip.BadGzipFile, zlib.error, EOFError) as error:
        raise Problem(f"{name}: {error}", "copy the file again, or record again") from error
    except OSError as error:
        raise Problem(f"{name}: {error.strerror}", remedy) from error


def write_file(name, parts):
    """Writes these parts, which are bytes, to a file. If that fails, no incomplete file is left."""
    try:
        with Part(f"writing {name}"), open(name, "wb") as file:
            try:
                file.writelines(parts)
                file.flush()
            except BaseException:
                remove(name)
                raise
    except OSError as error:
        raise Problem(f"{name}: {error.strerror}", "choose a place that can be written") from error


def remove(name):
    """Removes a file, if there is one. A device such as /dev/full stays."""
    if os.path.isfile(name):
        os.remove(name)


def print_lines(lines):
    """Prints lines once all of them could be made: an error leaves nothing printed."""
    with tempfile.SpooledTemporaryFile(IN_MEMORY) as file:
        try:
            with Part("writing the trace"):
                for line in lines:
                    file.write(line.encode())
            file.seek(0)
        except OSError as error:
            raise Problem(f"{tempfile.gettempdir()}: {error.strerror}",
                          "free some space there, or write to a file with --out") from error
        for line in file:
            sys.stdout.write(line.decode())
        sys.stdout.flush()
