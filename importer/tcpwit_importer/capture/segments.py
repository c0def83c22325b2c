"""The bytes of TCP segments: the fields of the header, its options, and what follows it (RFC 9293, 3.1 and 3.2).

Other programs of the repository import this module, too; it needs nothing else of the package.
"""
import struct

FIN, SYN, RST, PSH, ACK, URG, CWR = 1, 2, 4, 8, 16, 32, 128
# Sequence numbers are below this.
WRAP = 1 << 32
# The bytes of a header without options, and of one up to its flags.
SHORTEST, FLAGS_END = 20, 14
# Kinds of options: the end of all, padding, the maximum segment size, the window shift, that SACK is permitted, its
# blocks, timestamps, multipath TCP, and Fast Open.
END, PADDING, SIZE, SHIFT, PERMITTED, SACK = range(6)
TIMESTAMPS, MULTIPATH, FAST_OPEN = 8, 30, 34
# How the usual options after a handshake begin: padding and timestamps, which have 12 bytes together.
STAMPS = bytes([PADDING, PADDING, TIMESTAMPS, 10])

_PORTS = struct.Struct("!HH").unpack_from


def ports(segment):
    """The source port and the destination port."""
    return _PORTS(segment)


def number(segment):
    """The sequence number."""
    return int.from_bytes(segment[4:8], "big")


def acknowledgment(segment):
    """The acknowledgment number."""
    return int.from_bytes(segment[8:12], "big")


def header_length(segment):
    """How many bytes the header has, with its options."""
    return (segment[12] >> 4) * 4


def flags(segment):
    """The flags from CWR down to FIN."""
    return segment[13]


def window(segment):
    """The window, without a shift."""
    return int.from_bytes(segment[14:16], "big")


def options(segment):
    """The bytes of all options."""
    return segment[SHORTEST:header_length(segment)]


def payload(segment):
    """The bytes after the header."""
    return segment[header_length(segment):]


def size(segment):
    """How many bytes follow the header."""
    return len(segment) - header_length(segment)


def identity(segment):
    """The bytes that show that segments of two captures are the same one. Duplicate acknowledgments differ only in
    their options. An offload keeps only a segment's beginning, and a router may change the options of a SYN."""
    return segment[:16] if flags(segment) & SYN else segment[:16] + options(segment)


def values(kind, length, given):
    """The values of this kind and length among these options, in their order."""
    return [value for found, value in listed(given) if found == kind and len(value) == length]


def listed(rest):
    """The kind and the value of each of these options, without padding, up to the first that doesn't end among them."""
    while rest and rest[0] != END:
        if not (length := _length(rest)):
            return
        if rest[0] != PADDING:
            yield rest[0], rest[2:length]
        rest = rest[length:]


def are_damaged(rest):
    """Whether one of these options has a wrong length: its length is missing, below 2, or beyond the options' end."""
    if rest[:4] == STAMPS and len(rest) == 12:
        return False
    while rest and rest[0] != END:
        if not (length := _length(rest)):
            return True
        rest = rest[length:]
    return False


def _length(rest):
    """How many bytes the first of these options has; 0 if its length is wrong."""
    if rest[0] == PADDING:
        return 1
    length = rest[1] if len(rest) > 1 else 0
    return length if 2 <= length <= len(rest) else 0
