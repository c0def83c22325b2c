"""Tests recordings of this machine's kernel. Skipped without root or the recorder's programs."""
import os
import shutil
import signal
import subprocess
import sys
import tempfile
import time
import unittest

from tcpwit_importer.commands.tcpwit_record import PACKAGES
from tcpwit_importer.recording.namespaces import Namespace
from tcpwit_importer.recording.programs import ADDRESSES, Traced, strace

TOP = os.path.dirname(os.path.dirname(os.path.realpath(__file__)))
RECORD, JUDGE = os.path.join(TOP, "tcpwit-record"), os.path.join(TOP, "tcpwit-judge")
SERVER = f"{sys.executable} -m http.server 80"


@unittest.skipUnless(os.geteuid() == 0 and all(map(shutil.which, PACKAGES)), "needs root, " + ", ".join(PACKAGES))
class AsRoot(unittest.TestCase):
    def setUp(self):
        folder = tempfile.TemporaryDirectory()
        self.addCleanup(folder.cleanup)
        self.folder = folder.name

    def record(self, *words):
        """Records without judging. Returns the status, and standard error as bytes."""
        done = subprocess.run([RECORD, "--no-check", "--out", f"{self.folder}/out", *words], cwd=self.folder,
                              capture_output=True, timeout=100, check=False)
        self.assertEqual(done.stdout, b"")
        self.assertNotIn(b"Traceback", done.stderr)
        return done.returncode, done.stderr

    def script(self, name, text):
        """A program in the folder."""
        with open(os.path.join(os.fsencode(self.folder), name), "w", encoding="ascii") as file:
            file.write(text)
        os.chmod(file.name, 0o755)
        return b"./" + name

    def test_an_interface_that_does_not_exist(self):
        status, error = self.record("--interface", "none\x1b[2J", "--", "true")
        self.assertEqual(status, 2)
        self.assertRegex(error,
                         rb"^tcpwit-record: tcpdump printed: none\\x1b\[2J: No such device[^\n]*\n  tcpdump -D lists "
                         rb"the interfaces[^\n]*\n$")

    def test_a_capture_that_cannot_be_written(self):
        os.makedirs(f"{self.folder}/out/run.pcap")
        status, error = self.record("--namespace", "--", "true")
        self.assertEqual(status, 2)
        self.assertRegex(error, rb"/out/run.pcap: Is a directory\n  name a writable folder with --out\n$")

    def test_programs_that_the_system_refuses(self):
        name = self.script(b"text", "no program\n").decode()
        for words in (["--pair", name, "--", "true"], ["--pair", SERVER, "--", name], ["--namespace", "--", name]):
            status, error = self.record(*words)
            self.assertEqual(status, 2)
            self.assertIn(b"tcpwit-record: ./text: Exec format error\n  name a program", error)

    def test_a_client_whose_name_and_words_a_terminal_would_obey(self):
        name = self.script(b"c\x1b[2J\xff", "#!/bin/sh\nexit 3\n")
        status, error = self.record("--pair", SERVER, "--", name, b"\x1b[2J")
        self.assertEqual(status, 2)
        self.assertIn(b"tcpwit-record: ./c\\x1b[2J\\xff ended with status 3\n", error)
        self.assertNotIn(b"\x1b", error)

    def test_calls_are_logged_with_addresses(self):
        if ADDRESSES not in strace():
            self.skipTest("strace can't print addresses")
        client = self.script(b"client",
                             f"#!{sys.executable}\nimport socket\nsocket.create_connection(('10.9.0.2', "
                             "80)).sendall(b'GET / HTTP/1.0\\n\\n')\n")
        self.assertEqual(self.record("--pair", SERVER, "--", client)[0], 0)
        for name, ends in (("host0.log", rb"10\.9\.0\.1:\d+->10\.9\.0\.2:80"),
                           ("host1.log", rb"10\.9\.0\.2:80->10\.9\.0\.1:\d+")):
            with open(f"{self.folder}/out/{name}", "rb") as file:
                self.assertRegex(file.read(), rb"TCP:\[" + ends + rb"\]>, ")

    @unittest.skipUnless(os.environ.get("TCPWIT_LAB"), "TCPWIT_LAB names no program")
    def test_captures_alone_get_a_verdict(self):
        self.assertEqual(self.record("--transfer", "20000", "--lose", "3")[0], 0)
        captures = [f"{self.folder}/out/host{host}.pcap" for host in (0, 1)]
        for words in (captures, [captures[0], "--host", "client"], [captures[1], "--host", "server"]):
            done = subprocess.run([JUDGE, "--quiet", *words], capture_output=True, text=True, timeout=100, check=False)
            self.assertEqual((done.returncode, done.stderr), (0, ""))
            self.assertRegex(done.stdout, r"^10\.9\.0\.1:\d+ -> 10\.9\.0\.2:\d+   full      yes ")

    def test_a_trace_ends_when_the_recording_stopped(self):
        self.assertEqual(self.record("--transfer", "5")[0], 0)
        with open(f"{self.folder}/out/run.trace", encoding="ascii") as file:
            rows = [line.rstrip("\n").split(" ", 2) for line in file]
        self.assertEqual([text for _, _, text in rows[-2:]], ["B status 0", "E badsocket"])
        # Before the captures are stopped, the recorder looks four times, every 200 ms, whether they still grow.
        self.assertGreater(int(rows[-1][0]) - int(rows[-3][0]), 500_000)

    def test_ctrl_c_ends_a_pair(self):
        client = "import socket, time; end = socket.create_connection(('10.9.0.2', 80)); time.sleep(60)"
        words = [RECORD, "--no-check", "--out", f"{self.folder}/out", "--pair", SERVER, "--", sys.executable, "-c",
                 client]
        # A shell may start the tests with Ctrl-C ignored.
        with subprocess.Popen(words, stdout=subprocess.PIPE, stderr=subprocess.PIPE,
                              preexec_fn=lambda: signal.signal(signal.SIGINT, signal.SIG_DFL)) as process:
            until = time.monotonic() + 30
            while not self.has_logged(b"htons(80)") and time.monotonic() < until:
                time.sleep(0.05)
            process.send_signal(signal.SIGINT)
            out, error = process.communicate(timeout=60)
        self.assertEqual((process.returncode, out), (0, b""), error)
        self.assertIn(b"tcpwit-record: interrupted: the programs are ended, and what was recorded is kept", error)
        self.assertTrue(error.endswith(b"tcpwit-record: all files are in " + os.fsencode(self.folder) + b"/out\n"),
                        error)
        with open(f"{self.folder}/out/run.trace", encoding="ascii") as file:
            self.assertIn(" B open 0 ", file.read())

    def has_logged(self, text):
        """Whether the client's log has a text."""
        try:
            with open(f"{self.folder}/out/host0.log", "rb") as file:
                return text in file.read()
        except FileNotFoundError:
            return False

    def test_a_full_disk(self):
        os.mkdir(f"{self.folder}/out")
        if subprocess.run(["mount", "-t", "tmpfs", "-o", "size=4m", "none", f"{self.folder}/out"], capture_output=True,
                          check=False).returncode:
            self.skipTest("can't mount a small file system")
        try:
            status, error = self.record("--transfer", "2000000")
        finally:
            subprocess.run(["umount", f"{self.folder}/out"], check=True)
        self.assertEqual(status, 2, error)
        self.assertRegex(error,
                         rb"No space left on device[^\n]*\n  free some space, or name another folder with --out\n$")

    def test_daemons_are_ended(self):
        program = Traced(["sh", "-c", f"setsid sleep 77 & echo $! > {self.folder}/pid"], f"{self.folder}/log",
                         Namespace())
        until = time.monotonic() + 10
        while not (os.path.exists(f"{self.folder}/pid") and (daemon := self.daemon())) and time.monotonic() < until:
            time.sleep(0.05)
        self.assertIn(b"77", command_of(daemon))
        program.stop(0)
        self.assertEqual(command_of(daemon), b"")

    def daemon(self):
        """The process number that a program has written; an empty text if it hasn't yet."""
        with open(f"{self.folder}/pid", encoding="ascii") as file:
            return file.read().strip()


def command_of(process):
    """The arguments of a process; none once it has ended."""
    try:
        with open(f"/proc/{process}/cmdline", "rb") as file:
            return file.read()
    except OSError:
        return b""


if __name__ == "__main__":
    unittest.main()
