"""Tests how the header and the options of a segment are read."""
import unittest

from tcpwit_importer.capture import segments
from tcpwit_importer.capture.segments import ACK, SHIFT, SIZE, SYN

from .wire import ONE, ZERO, segment


class Segments(unittest.TestCase):
    def test_the_fields(self):
        data = segment(ZERO, ONE, 2**32 - 2, 7, SYN | ACK, b"abc", bytes([2, 4, 5, 180]), window=300)
        self.assertEqual((segments.ports(data), segments.number(data), segments.acknowledgment(data)),
                         ((4000, 80), 2**32 - 2, 7))
        self.assertEqual((segments.flags(data), segments.window(data), segments.header_length(data)),
                         (SYN | ACK, 300, 24))
        self.assertEqual((segments.options(data), segments.payload(data), segments.size(data)),
                         (bytes([2, 4, 5, 180]), b"abc", 3))

    def test_options(self):
        for given, found in (((1, 1, 3, 3, 7, 2, 4, 5, 180, 0, 3, 3), [(SHIFT, b"\x07"), (SIZE, b"\x05\xb4")]),
                             ((4, 2, 3, 3), [(4, b"")]), ((1, 9), []), ((9, 1, 3, 3, 7), []), ((), [])):
            self.assertEqual(list(segments.listed(bytes(given))), found)
        self.assertEqual(segments.values(SHIFT, 1, bytes([3, 3, 1, 3, 2, 3, 4, 0, 0, 3, 3, 2])), [b"\x01", b"\x02"])

    def test_what_two_captures_show_of_the_same_segment(self):
        def of(flags=ACK, payload=b"", options=b"", checksum=7):
            return segments.identity(segment(ZERO, ONE, 1, 7, flags, payload, options, checksum=checksum))

        stamps = bytes((8, 10, *range(8), 1, 1))
        # An offload joins bytes, and leaves checksums unfinished.
        self.assertEqual(of(payload=b"a", options=stamps), of(payload=b"ab", options=stamps, checksum=9))
        self.assertNotEqual(of(options=stamps), of(options=stamps[:9] + b"\x09\1\1"))
        self.assertNotEqual(of(), of(SYN))
        self.assertEqual(of(SYN, options=bytes([2, 4, 5, 180])), of(SYN, options=bytes([2, 4, 5, 100])))


if __name__ == "__main__":
    unittest.main()
