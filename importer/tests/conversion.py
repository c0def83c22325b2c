"""Converts short logs into the calls of a trace."""
import tempfile
import unittest

from tcpwit_importer.calls.host_calls import HostCalls
from tcpwit_importer.capture.clocks import SAME
from tcpwit_importer.capture.connections import connections_of
from tcpwit_importer.problem import Notes
from tcpwit_importer.trace.cases import Case
from tcpwit_importer.trace.lines import Writer

from .wire import ONE, SECOND, ZERO, Talk, address, events, packets

AT = 100 * SECOND
SOCKET = "socket(AF_INET, SOCK_STREAM, IPPROTO_TCP) = 3"
CONNECT = f"connect(3, {address(ONE)}, 16) = 0"


def both_of(one, two):
    """Two connections in the same captures."""
    for host in (0, 1):
        one.frames[host] = sorted(one.frames[host] + two.frames[host], key=lambda frame: frame[0])
    return one


class Conversion(unittest.TestCase):
    def told(self, lines, host=0, talk=None, step=2 * 10**7):
        """The texts of the calls for a log's lines. The connection's SYN arrives at the moment AT."""
        talk = talk or Talk(at=AT + step)
        rows = []
        for number, line in enumerate(lines):
            process, text = line if isinstance(line, tuple) else (7, line)
            rows.append((process, AT + number * step if number else AT - 10**9, text))
        rows.append((99, AT + len(lines) * step, "close(99) = -1 EBADF (Bad file descriptor)"))
        connections = connections_of({"c0": packets(talk, 0), "c1": packets(talk, 1)})
        self.notes = Notes()
        with tempfile.TemporaryDirectory() as folder:
            found = events(folder, rows)
        endpoints = HostCalls(host, connections, [f"c{host}"], self.notes).run(found)
        for connection in connections:
            connection.hosts = {connection.client: 0, connection.server: 1}
        writer = Writer(Case("run", connections, endpoints), {0: "c0", 1: "c1"}, SAME, 0, self.notes)
        # The last two lines are the call that ends each trace.
        lines = [line.rstrip("\n").split(" ", 2) for line in writer.lines()][:-2]
        told = [line for line in lines if line[2][0] in "BE"]
        self.texts, self.threads = [text for _, _, text in lines], [thread for _, thread, _ in told]
        return [text for _, _, text in told]

    def client(self, *lines, talk=None, **options):
        """The calls after those that open a connection as number 1."""
        found = self.told([SOCKET, CONNECT, *lines], talk=talk, **options)
        self.assertEqual(found[:4], ["B open 0 4000 80", "E ok 1", "B await 1", "E ok"])
        return found[4:]

    def server(self, *lines, **options):
        """The calls after those that accept number 2 as descriptor 4."""
        found = self.told([SOCKET, f"bind(3, {address(ONE)}, 16) = 0", "listen(3, 5) = 0",
                           f"accept(3, {address(ZERO)}, [16]) = 4", *lines], host=1, **options)
        self.assertEqual(found[:4], ["B listen 1 80 5", "E ok 1", "B accept 1", "E ok 2"])
        return found[4:]
