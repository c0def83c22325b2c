"""Tests a folder of captures as people have them, made of the recordings: of one host and of both, begun late, cut,
with a small snap length, of one direction, with copies, and in the middle. The answers need TCPWIT_LAB.

All hosts keep to the rules, so each no would be false. A yes is useful, and so would be a no that is right.
"""
import json
import os
import struct
import tarfile
import tempfile
import unittest
from collections import Counter
from itertools import cycle

from .test_judge import run
from .test_recordings import DATA

# Bytes before the first record of a pcap file, and before the bytes of each.
HEAD, RECORD = 24, 16
# Bytes of Ethernet before a packet, and of IPv4 before the TTL.
LINK, LIFETIME = 14, 8


def records(data):
    """The records of a pcap file."""
    found, at = [], HEAD
    while at < len(data):
        stop = at + RECORD + struct.unpack_from("<I", data, at + 8)[0]
        found.append(data[at:stop])
        at = stop
    return found


def late(data):
    """Without the first third of the packets, and no handshake."""
    found = records(data)
    return data[:HEAD] + b"".join(found[max(3, len(found) // 3):])


def cut(data):
    """Without a third of the packets, and the end of the last one."""
    found = records(data)
    return data[:HEAD] + b"".join(found[:len(found) * 2 // 3 + 1])[:-5]


def snapped(data):
    """With at most 96 bytes of each packet."""
    return data[:HEAD] + b"".join(record[:8] + struct.pack("<I", min(96, len(record) - RECORD)) + record[12:RECORD + 96]
                                  for record in records(data))


def one_way(data):
    """Only with the packets of the first one's sender."""
    found = records(data)
    return data[:HEAD] + b"".join(record for record in found if record[22:28] == found[0][22:28])


def copied(data):
    """Each packet twice, the second time behind a router, as a mirror port may show it."""
    parts = [data[:HEAD]]
    for record in records(data):
        copy = bytearray(record)
        copy[RECORD + LINK + (LIFETIME if record[RECORD + LINK] >> 4 == 4 else 7)] -= 1
        parts += [record, bytes(copy)]
    return b"".join(parts)


VARIANTS = late, cut, snapped, late, copied, cut, one_way, snapped


@unittest.skipUnless(os.environ.get("TCPWIT_LAB"), "TCPWIT_LAB names no program")
class Mixed(unittest.TestCase):
    def test_a_folder(self):
        folder, self.answers = self.enterContext(tempfile.TemporaryDirectory()), Counter()
        for name in ("recordings.tar.xz", "middle.tar.xz"):
            with tarfile.open(os.path.join(DATA, name)) as archive:
                archive.extractall(folder)
        self.judge_recordings(folder)
        self.judge_middle(folder)
        self.assertGreater(self.answers.total(), 150)
        self.assertGreater(self.answers["yes"], 0.85 * self.answers.total(), self.answers)

    def judge_recordings(self, folder):
        """Judges both captures of each recording, alone and together, and a variant of each."""
        variants = cycle(VARIANTS)
        for name in sorted(os.listdir(folder)):
            hosts = [f"{folder}/{name}/host{number}.pcap" for number in (0, 1)]
            if not os.path.exists(hosts[0]):
                continue
            self.judge(*hosts)
            for host, file in zip(("client", "server"), hosts):
                self.judge(file)
                variant = next(variants)
                with open(file, "rb") as source, open(f"{file}-{variant.__name__}", "wb") as target:
                    target.write(variant(source.read()))
                # Without a handshake, only the user knows whose capture it is.
                self.judge(target.name, *(["--host", host] if variant is late else []))

    def judge_middle(self, folder):
        """Judges the captures that were made in the middle."""
        for name in ("abort", "download", "echo", "slow", "upload"):
            self.judge(f"{folder}/{name}-middle.pcap")

    def judge(self, *words):
        """Counts the answers, of which none may be a no."""
        _, out, error = run(*words, "--json")
        for line in out.splitlines():
            found = json.loads(line)
            answer = found.get("answer", found.get("reason"))
            self.answers["yes" if answer == "yes" else "not judged"] += 1
            self.assertNotEqual(answer, "no", (words, out, error))


if __name__ == "__main__":
    unittest.main()
