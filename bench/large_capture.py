#!/usr/bin/env python3
"""Measures tcpwit-judge on a large capture: seconds, and the most memory that all its processes had together.

    python3 bench/large_capture.py LAB [MEGABYTES [CONNECTIONS [PROCESSORS]]]

The capture is of a server that answers each of CONNECTIONS (default: 10,000) connections with the same number of bytes;
the file has MEGABYTES (default: 1,000). Fifty connections run at the same time. Two of the client's acknowledgments are
never missing, and no segment is lost, so that each connection has a yes. tcpwit-judge runs on PROCESSORS (default: 2).
The capture is written to the folder of temporary files.
"""
import os
import struct
import subprocess
import sys
import tempfile
import threading
import time

TOP = os.path.dirname(os.path.dirname(os.path.abspath(__file__)))
COMMAND = os.path.join(TOP, "importer", "tcpwit-judge")
SYN, ACK, FIN, PSH = 2, 16, 1, 8
SERVER, SIZE, TOGETHER = bytes([10, 0, 0, 2]), 1448, 50
OPTIONS = b"\x02\x04\x05\xa8"


def frame(client, number, acknowledgment, flags, payload=b"", options=b"", from_server=False):
    """An Ethernet frame with a segment between the server and a client, which is an address and a port."""
    ports = (80, client[1]) if from_server else (client[1], 80)
    addresses = SERVER + client[0] if from_server else client[0] + SERVER
    offset = (20 + len(options)) // 4 << 4
    header = struct.pack("!HHIIBBHHH", *ports, number, acknowledgment, offset, flags, 65535, 0, 0)
    segment = header + options + payload
    ip = struct.pack("!BBHHHBBH", 0x45, 0, 20 + len(segment), 1, 0, 64, 6, 0)
    return bytes(12) + b"\x08\x00" + ip + addresses + segment


def connection(number, size):
    """The frames of one connection, in order."""
    client = (bytes([10, 1, number // 20000, number // 250 % 80 + 1]), 1024 + number % 60000)
    yield frame(client, 1000, 0, SYN, options=OPTIONS)
    yield frame(client, 5000, 1001, SYN | ACK, options=OPTIONS, from_server=True)
    yield frame(client, 1001, 5001, ACK)
    yield frame(client, 1001, 5001, ACK | PSH, b"GET /")
    sent = 0
    data = os.urandom(SIZE)
    while sent < size:
        for _ in range(2):
            yield frame(client, 5001 + sent, 1006, ACK, data, from_server=True)
            sent += SIZE
        yield frame(client, 1006, 5001 + sent, ACK)
    yield frame(client, 5001 + sent, 1006, ACK | FIN, from_server=True)
    yield frame(client, 1006, 5002 + sent, ACK | FIN)
    yield frame(client, 5002 + sent, 1007, ACK, from_server=True)


def write(name, megabytes, connections):
    """Writes the capture."""
    size, at = megabytes * 10**6 // connections, 10**15
    with open(name, "wb") as file:
        file.write(struct.pack("<IHHiIII", 0xA1B2C3D4, 2, 4, 0, 0, 262144, 1))
        for first in range(0, connections, TOGETHER):
            running = [connection(number, size) for number in range(first, min(first + TOGETHER, connections))]
            while running:
                for each in list(running):
                    found = next(each, None)
                    if found is None:
                        running.remove(each)
                        continue
                    at += 20
                    file.write(struct.pack("<IIII", at // 10**6, at % 10**6, len(found), len(found)) + found)


def tree(process):
    """A process and its descendants."""
    found = [process]
    for name in os.listdir(f"/proc/{process}/task"):
        with open(f"/proc/{process}/task/{name}/children", encoding="ascii") as file:
            for child in file.read().split():
                found += tree(int(child))
    return found


def kilobytes(process):
    """The memory of a process; what it shares is divided among those that share it."""
    with open(f"/proc/{process}/smaps_rollup", encoding="ascii") as file:
        return next(int(line.split()[1]) for line in file if line.startswith("Pss:"))


class Memory(threading.Thread):
    """Finds the most memory that the processes of a command have together."""

    def __init__(self, process):
        super().__init__(daemon=True)
        self.process, self.most = process, 0

    def run(self):
        while self.process.poll() is None:
            try:
                self.most = max(self.most, sum(map(kilobytes, tree(self.process.pid))))
            except (OSError, StopIteration):
                # A process has ended meanwhile.
                pass
            time.sleep(0.05)


def main():
    """Runs the benchmark."""
    if not 2 <= len(sys.argv) <= 5:
        sys.exit(__doc__)
    words = sys.argv[2:] + ["1000", "10000", "2"][len(sys.argv) - 2:]
    megabytes, connections, processors = map(int, words)
    with tempfile.TemporaryDirectory() as folder:
        name = f"{folder}/large.pcap"
        write(name, megabytes, connections)
        words = [COMMAND, name, "--host", "server", "--lab", os.path.abspath(sys.argv[1]), "--jobs", str(processors),
                 "--quiet"]
        begun = time.monotonic()
        with open(f"{folder}/out", "w+", encoding="utf-8") as out:
            process = subprocess.Popen(words, stdout=out, preexec_fn=lambda: os.sched_setaffinity(0, range(processors)))
            memory = Memory(process)
            memory.start()
            status = process.wait()
            memory.join()
            out.seek(0)
            summary = next(line for line in out if " yes, " in line)
        print(f"{os.path.getsize(name) / 10**6:.0f} MB, {summary.strip()}")
        print(f"status {status}, {time.monotonic() - begun:.1f} s, at most {memory.most / 1000:.0f} MB of memory")


if __name__ == "__main__":
    main()
