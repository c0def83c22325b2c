"""Tests what happens to the files of a recording: earlier ones, large ones, and a disk that is full."""
import contextlib
import gzip
import io
import os
import tempfile
import unittest
from unittest import mock

from tcpwit_importer.problem import Problem
from tcpwit_importer.recording import folder as folders
from tcpwit_importer.recording.folder import Folder


class Files(unittest.TestCase):
    def setUp(self):
        folder = tempfile.TemporaryDirectory()
        self.addCleanup(folder.cleanup)
        self.name = os.path.join(folder.name, "out")

    def write(self, *names, text=b"0123456789" * 100):
        """Writes files in the folder."""
        for name in names:
            path = os.path.join(self.name, name)
            os.makedirs(os.path.dirname(path), exist_ok=True)
            with open(path, "wb") as file:
                file.write(text)

    def names(self):
        """All files and empty folders."""
        found = [os.path.relpath(os.path.join(place, name), self.name) for place, _, names in os.walk(self.name)
                 for name in names]
        return sorted(found
                      + [os.path.relpath(place, self.name) for place, within, names in os.walk(self.name)
                         if not within + names])

    def test_files_of_an_earlier_recording_are_removed(self):
        kept = ["notes.case", "old/run.case", "run.case.old", "192.0.2.1/page", "run-2/run.case", "run-old/run.case",
                "2026-11-27/run.case"]
        self.write(*kept, "run.case", "run.svg", "run.trace.gz", "host0.pcap", "host1.log.gz", "run.pcap", "run.log",
                   "192.0.2.1/run.trace", "192.0.2.2/run.case", "2001_db8__1/run.svg", "run-192.0.2.2_80/run.case",
                   "run-2001_db8__1_80-3/run.trace.gz", "192.0.2.1-192.0.2.2_80/run.svg")
        Folder(self.name)
        self.assertEqual(self.names(), sorted(kept))

    def test_a_folder_that_cannot_be_made(self):
        self.write("file")
        with self.assertRaisesRegex(Problem, "file/out: Not a directory\n  name another folder with --out"):
            Folder(f"{self.name}/file/out")

    def test_large_files_are_compressed(self):
        self.write("host0.log", "run.case", "run.trace", "192.0.2.1/run.case", "page.log")
        self.write("host1.log", text=b"small")
        folder = Folder.__new__(Folder)
        folder.name, folder.compressions = self.name, []
        with mock.patch.object(folders, "LARGE", 999):
            folder.compress(".log")
            folder.compress(".case")
            folder.finish()
        self.assertEqual(self.names(),
                         ["192.0.2.1/run.case.gz", "host0.log.gz", "host1.log", "page.log", "run.case.gz", "run.trace"])
        with gzip.open(f"{self.name}/host0.log.gz") as file:
            self.assertEqual(file.read(), b"0123456789" * 100)

    def test_a_file_that_cannot_be_compressed_stays(self):
        self.write("run.case")
        os.makedirs(f"{self.name}/run.case.gz")
        folder = Folder.__new__(Folder)
        folder.name, folder.compressions = self.name, []
        with mock.patch.object(folders, "LARGE", 999), contextlib.redirect_stderr(io.StringIO()) as error:
            folder.compress(".case")
            folder.finish()
        self.assertRegex(error.getvalue(), r"^tcpwit-record: .*/run.case is not compressed: gzip: .+\n$")
        self.assertIn("run.case", self.names())

    def test_a_full_disk_is_named(self):
        folder = Folder(self.name)
        folder.refuse_full_disk()
        # The blocks that only root may use are free, too.
        full = "out: No space left on device, so the recording is incomplete\n  free some space"
        for blocks in (0, 15):
            with mock.patch("os.statvfs", return_value=mock.Mock(f_bfree=blocks, f_bavail=0, f_frsize=4096)), \
                    self.assertRaisesRegex(Problem, full):
                folder.refuse_full_disk()
        with mock.patch("os.statvfs", return_value=mock.Mock(f_bfree=16, f_bavail=0, f_frsize=4096)):
            folder.refuse_full_disk()


if __name__ == "__main__":
    unittest.main()
