"""Tests the bytes of a stream against a table of bytes."""
import random
import unittest
from types import SimpleNamespace

from tcpwit_importer.capture.segments import ACK
from tcpwit_importer.infer.streams import Stream

from .wire import ONE, ZERO, segment

FIRST = 2**32 - 40


class Model:
    """The bytes of a stream by their offsets. The first one counts."""

    def __init__(self):
        self.bytes, self.conflict = {}, None

    def add(self, offset, payload):
        """Adds bytes."""
        for at, byte in enumerate(payload, offset):
            if self.bytes.setdefault(at, byte) != byte and (self.conflict is None or at < self.conflict):
                self.conflict = at


class Streams(unittest.TestCase):
    def test_segments_at_random(self):
        dice = random.Random(7)
        for _ in range(300):
            stream, model, wrong = Stream(FIRST), Model(), dice.choice((0, 0, 0.05))
            for _ in range(dice.randrange(1, 30)):
                offset, size = dice.randrange(100), dice.randrange(1, 30)
                payload = bytes((at * 7 + (dice.random() < wrong)) % 256 for at in range(offset, offset + size))
                missing = dice.choice((0, 0, dice.randrange(size)))
                number = (FIRST + 1 + offset) % 2**32
                body = segment(ZERO, ONE, number, 1, ACK, payload, dice.choice((b"", bytes(4))))
                stream.add(SimpleNamespace(number=number, flags=ACK, size=size, missing=missing, segment=body))
                model.add(offset, payload[:size - missing])
                self.compare(stream, model, dice)

    def compare(self, stream, model, dice):
        """Compares a part of both, and the end."""
        start = dice.randrange(130)
        stop = start + dice.randrange(1, 40)
        expected = bytes(model.bytes.get(at, 0) for at in range(start, stop))
        self.assertEqual(stream.bytes_of(start, stop - start), expected)
        self.assertEqual(stream.hex_of(start, stop - start), expected.hex())
        self.assertEqual(stream.has(start, stop), all(at in model.bytes for at in range(start, stop)))
        self.assertEqual((stream.end, stream.conflict), (max(model.bytes) + 1, model.conflict))
        starts = [at for at in model.bytes if at - 1 not in model.bytes]
        self.assertEqual([span.start for span in stream.spans], sorted(starts))


if __name__ == "__main__":
    unittest.main()
