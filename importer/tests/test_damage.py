"""Tests tcpwit-judge with damaged captures: it gives verdicts, or an error with a remedy."""
import io
import signal
import unittest
from unittest import mock

from . import damage, samples, test_judge

COUNT = 150


class Damaged(test_judge.WithCaptures):
    def judged(self, name, whole):
        """Judges a capture, which may come by standard input. Returns None after an error."""
        words = ["-"] if whole else [name]
        with open(name, "rb") as file, mock.patch("sys.stdin", io.TextIOWrapper(io.BytesIO(file.read()))):
            status, out, error = test_judge.run(*words, *self.options, "--host",
                                                "both" if name.endswith("2.pcap") else "client")
        self.assertIn(status, (0, 1, 2))
        self.assertNotIn("this is a bug", error + out)
        self.assertNotIn("Traceback", error)
        if status == 2:
            self.assertRegex(error + out, r"tcpwit-judge: .+\n  .+|not judged: ")
            return None
        return out

    def test_damaged_captures(self):
        self.options, kept = self.lab(), signal.getsignal(signal.SIGINT)
        self.addCleanup(signal.signal, signal.SIGINT, kept)
        captures = [data for _, data in [*samples.every(), ("together", samples.together())]]
        good, bad = damage.run(captures, 79, COUNT, f"{self.folder}/1.pcap", self.judged)
        self.assertEqual(good + bad, COUNT)
        self.assertGreater(good, COUNT // 10)
        damage.run(captures, 80, COUNT, f"{self.folder}/2.pcap", self.judged)


if __name__ == "__main__":
    unittest.main()
