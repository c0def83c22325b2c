"""Converts captures without a log into the trace of a connection."""
import unittest
from unittest import mock

from tcpwit_importer import infer
from tcpwit_importer.capture.connections import connections_of
from tcpwit_importer.capture.packets import shown
from tcpwit_importer.infer.conversion import Trace
from tcpwit_importer.problem import Notes

from .wire import packets


def calls_of(lines):
    """The calls of a trace, with the letters of the segments between them."""
    found = []
    for line in lines:
        words = line.rstrip("\n").split(" ", 2)
        if len(words) == 3 and words[0].isdigit():
            found.append(words[2][:3] if words[2][0] in "OI" else words[2])
    return found[:-2]


class Inferring(unittest.TestCase):
    def setUp(self):
        # Calls then begin just before the segments that they permit.
        self.enterContext(mock.patch.object(infer.calls, "WIDTH", 0))

    def trace(self, talk, captures=None, hosts=(0, 1), chosen=None):
        """The lines of a connection's trace. `hosts` are those of the client and the server."""
        captures = {0: "c0", 1: "c1"} if captures is None else captures
        # A capture of both hosts has what host 0 sent and received.
        seen = {name: packets(talk, 1 if name == "c1" else 0) for name in captures.values()}
        connection, = connections_of(seen)
        self.assertEqual(shown(connection.client).split(":")[1], "4000")
        connection.hosts = dict(zip((connection.client, connection.server), hosts))
        last = {host: max(packet.moment for packet in seen[name]) for host, name in captures.items()}
        self.notes = Notes()
        return list(Trace(connection, captures, last, chosen or {}, self.notes).lines())

    def calls(self, talk, **options):
        """The calls and the letters of the segments, in order."""
        return calls_of(self.trace(talk, **options))

    def of_host(self, calls, host):
        """What a host did: its own segments, and calls without those of the other host's sockets."""
        return [call for call in calls if call[2:3] == str(host) or call[0] not in "OI"]
