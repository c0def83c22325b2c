"""The folder of a recording: files of an earlier one are removed, and large files are compressed."""
import contextlib
import os
import re
import subprocess
import time
from ipaddress import ip_address

from ..files import remove
from ..problem import Problem, one_line, say
from ..progress import Part
from . import NAME

# The name of a new folder; .gitignore lists it.
FOLDER = "tcpwit-%Y%m%d-%H%M%S"
# The files of a recording. If it has several traces, each has a folder of its own, with the trace's name.
OWN = re.compile(r"(host[01]|run)\.(pcap|log|trace|case|svg)(\.gz)?")
# Files with more bytes are compressed. The log of a Python program has some 10 MB, because it shows what Python loads.
LARGE = 50_000_000
# A disk with fewer free bytes is full.
FULL = 65_536


class Folder:
    """A folder for the files of a recording."""

    def __init__(self, name):
        self.name = name or time.strftime(FOLDER)
        self.compressions = []
        try:
            os.makedirs(self.name, exist_ok=True)
            self.remove_earlier()
        except OSError as error:
            raise Problem(f"{error.filename}: {error.strerror}", "name another folder with --out") from error

    def file(self, name):
        """The path of a file in the folder."""
        return os.path.join(self.name, name)

    def remove_earlier(self):
        """Removes the files of an earlier recording, so that none looks like one of this recording."""
        for folder in self.folders():
            for name in filter(OWN.fullmatch, os.listdir(folder)):
                remove(os.path.join(folder, name))
            if folder != self.name:
                with contextlib.suppress(OSError):
                    os.rmdir(folder)

    def folders(self):
        """The folder itself and those of single traces."""
        return [self.name,
                *(self.file(name) for name in sorted(os.listdir(self.name))
                  if is_of_trace(name) and os.path.isdir(self.file(name)))]

    def refuse_full_disk(self):
        """Fails if the disk is full: the programs that record don't report that, and leave incomplete files."""
        disk = os.statvfs(self.name)
        if disk.f_bfree * disk.f_frsize < FULL:
            raise Problem(f"{self.name}: No space left on device, so the recording is incomplete",
                          "free some space, or name another folder with --out")

    def compress(self, *ends):
        """Starts to compress large files whose names end like this, while other work goes on."""
        for folder in self.folders():
            for path in (os.path.join(folder, name) for name in sorted(os.listdir(folder))
                         if OWN.fullmatch(name) and name.endswith(ends)):
                if os.path.isfile(path) and os.path.getsize(path) > LARGE:
                    self.compressions.append((path,
                                              subprocess.Popen(["gzip", "-1", "-f", path], stdin=subprocess.DEVNULL,
                                                               stderr=subprocess.PIPE)))

    def finish(self):
        """Waits until large files are compressed. One that can't be compressed stays as it is."""
        for path, process in self.compressions:
            with Part(f"compressing {path}"):
                said = process.communicate()[1]
            if process.returncode:
                say(NAME, f"{path} is not compressed: {one_line(said)}")


def is_of_trace(name):
    """Whether a folder has the name of a trace: a peer's address, or `run`; if traces differ in more, with addresses
    and ports or numbers."""
    first, *rest = name.split("-")
    return is_address(first if first != "run" or not rest else rest[0].rsplit("_", 1)[0]) \
        and all(part.isdigit() or is_address(part.rsplit("_", 1)[0]) for part in rest)


def is_address(text):
    """Whether a text is an address, with underscores instead of colons."""
    try:
        ip_address(text.replace("_", ":"))
    except ValueError:
        return False
    return True
