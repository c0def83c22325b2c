"""Tests how much memory an import and a judgement need."""
import tracemalloc
import unittest

from tcpwit_importer.capture.index import Capture, indexed
from tcpwit_importer.capture.segments import ACK, FIN
from tcpwit_importer.infer.conversion import Trace
from tcpwit_importer.problem import Notes

from . import test_command
from .test_command import AT, CLIENT, SERVER, run
from .wire import Talk, pcap

COUNT, SIZE = 300, 1400


def large(folder):
    """A connection that carries COUNT segments, with its logs. Returns the importer's arguments for the captures, and
    both logs."""
    talk = Talk(at=AT)
    talk.at = AT + 7 * 10**6
    client, server = CLIENT[:2], SERVER[:4]
    for number in range(COUNT):
        data = number.to_bytes(4, "big") * (SIZE // 4)
        text = "".join(f"\\x{byte:02x}" for byte in data)
        client = [*client, (7, talk.at - 10**6, f'write(3, "{text}", {SIZE}) = {SIZE}')]
        talk.send(0, ACK, data)
        server = [*server, (8, talk.at, f'read(4, "{text}", 9999) = {SIZE}')]
        talk.send(1)
    talk.send(0, ACK | FIN)
    return talk.write(folder), [*client, (7, talk.at - 3 * 10**6, "close(3) = 0")], server


class Memory(test_command.WithFiles):
    def peak(self, act):
        """The most memory that an act needs."""
        tracemalloc.start()
        try:
            act()
            return tracemalloc.get_traced_memory()[1]
        finally:
            tracemalloc.stop()

    def test_bytes_of_memory_for_each_byte_transferred(self):
        captures, client, server = large(self.folder)
        words = [*captures, *self.write_logs(client, server), "--no-check", "--quiet", "--out",
                 f"{self.folder}/run.trace"]
        del client, server
        peak = self.peak(lambda: self.assertEqual(run(*words)[0], 0))
        self.assertLess(peak, 10 * COUNT * SIZE)

    def test_a_connection_that_is_judged_needs_its_bytes_once(self):
        large(self.folder)
        name, count = f"{self.folder}/c0.pcap", 0
        capture = Capture(name, name)
        index, = indexed([capture], Notes())

        def convert():
            nonlocal count
            connection = index.read({name: name}, {name: capture.layout})
            connection.hosts = {connection.client: 0, connection.server: 1}
            count = sum(map(len, Trace(connection, {0: name}, {0: capture.last}, {}, Notes()).lines()))
        self.assertLess(self.peak(convert), 2.5 * COUNT * SIZE)
        self.assertGreater(count, 4 * COUNT * SIZE)

    def test_an_index_of_many_connections(self):
        name, count = f"{self.folder}/many.pcap", 1000
        pcap(name, [frame for port in range(count) for frame in Talk(zero=("10.9.0.1", port + 1)).frames[0]])
        peak = self.peak(lambda: self.assertEqual(len(indexed([Capture(name, name)], Notes())), count))
        self.assertLess(peak, 4500 * count)


if __name__ == "__main__":
    unittest.main()
