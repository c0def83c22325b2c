"""Writes a capture again as pcapng, with comments on packets. Wireshark shows them as `frame.comment`.

The blocks of a pcapng file are copied as they are, except that packets get comments. So both formats keep all packets
in their order, with their bytes, times and link types.
"""
import contextlib
import os
import struct

from ..capture.frames import INTERFACE, OLD_PACKET, ORDERS, PACKET, PIECE, SECTION, Ended, Layout, frames_of
from ..files import opened, write_file
from .comments import PROGRAM

MAGIC = SECTION.to_bytes(4, "big")
COMMENT, APPLICATION, RESOLUTION = 1, 4, 9
# An option's length has 16 bits.
LONGEST = 65535
# A packet's data begins here in its block; its options follow.
DATA = 28
# A section's length comes after its byte order and version. Comments change it, so it is unknown.
VERSION, UNKNOWN = 4, struct.pack("<q", -1)


def annotate(capture, comments, name):
    """Writes a capture with the comments, lists of texts by the packets' numbers, to a file."""
    with opened(capture.file, "name a capture that can be read") as file:
        magic = file.read(4)
    blocks = with_comments(capture, comments) if magic == MAGIC else converted(capture, comments)
    write_file(name, blocks)


def converted(capture, comments):
    """The blocks for a pcap file. A last packet that is incomplete is left out."""
    with open(capture.file, "rb") as file, contextlib.suppress(Ended):
        head = file.read(24)
        file.seek(0)
        layout = Layout()
        for count, frame in enumerate(frames_of(capture.name, file, layout), 1):
            section = layout.sections[0]
            if count == 1:
                yield from beginning(section, struct.unpack_from(section.order + "I", head, 16)[0])
            high, low = divmod(frame.moment // section.nanoseconds, 1 << 32)
            fields = struct.pack("<5I", 0, high, low, len(frame.data), frame.length)
            yield block("<", PACKET, fields + padded(frame.data) + ended(texts("<", comments.get(count, ()))))


def beginning(section, longest):
    """The blocks before the packets: a section, and an interface with the unit of time and the snap length."""
    about = option("<", APPLICATION, PROGRAM.encode())
    yield block("<", SECTION, struct.pack("<IHHq", 0x1A2B3C4D, 1, 0, -1) + ended(about))
    unit = option("<", RESOLUTION, bytes([9 if section.nanoseconds == 1 else 6]))
    yield block("<", INTERFACE, struct.pack("<HHI", section.links[0][0], 0, longest) + ended(unit))


def with_comments(capture, comments):
    """The blocks of a pcapng file, in pieces. A last block that is incomplete is left out."""
    size, order, count, offset = os.path.getsize(capture.file), "<", 0, 0
    with open(capture.file, "rb") as file:
        while len(head := file.read(8)) == 8:
            if head[:4] == MAGIC:
                mark = file.read(4)
                order = ORDERS[mark]
                head += mark + file.read(VERSION)
                file.read(len(UNKNOWN))
                head += UNKNOWN
            kind, length = struct.unpack_from(order + "II", head)
            offset += length
            if offset > size:
                return
            count += kind in (PACKET, OLD_PACKET)
            if kind in (PACKET, OLD_PACKET) and count in comments:
                yield commented(order, head + file.read(length - len(head)), comments[count])
            else:
                yield head
                yield from rest(file, length - len(head))


def rest(file, length):
    """The rest of a block."""
    while length and (piece := file.read(min(length, PIECE))):
        yield piece
        length -= len(piece)


def commented(order, packet, words):
    """A packet's block with comments before its other options."""
    kind, = struct.unpack_from(order + "I", packet)
    captured, = struct.unpack_from(order + "I", packet, 20)
    start = DATA + (captured + 3) // 4 * 4
    return block(order, kind, packet[8:start] + texts(order, words) + (packet[start:-4] or bytes(4)))


def texts(order, words):
    """The options for comments."""
    return b"".join(option(order, COMMENT, text.encode(errors="replace")[:LONGEST]) for text in words)


def option(order, code, value):
    """An option of a block."""
    return struct.pack(order + "HH", code, len(value)) + padded(value)


def ended(options):
    """Options with their end, if there are any."""
    return options + bytes(4) if options else b""


def padded(data):
    """Bytes that end at a multiple of four."""
    return data + bytes(-len(data) % 4)


def block(order, kind, body):
    """A block of pcapng. The number of a section's kind is the same in each byte order."""
    length = struct.pack(order + "I", len(body) + 12)
    return struct.pack(order + "I", kind) + length + body + length
