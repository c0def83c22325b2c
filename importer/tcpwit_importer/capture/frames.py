"""The frames of a capture file: pcap and pcapng, of either byte order, read once from beginning to end or one by its
offset."""
import struct
from bisect import bisect_right
from typing import Any, NamedTuple

from ..problem import Problem
from ..remedies import BUFFER
from .blocks import Blocks
from .layers import LINKS

# The magic number of pcap as the file has it: byte order, nanoseconds of a fraction, bytes of a packet's header.
PCAP = {b"\xd4\xc3\xb2\xa1": ("<", 1000, 16), b"\xa1\xb2\xc3\xd4": (">", 1000, 16), b"\x4d\x3c\xb2\xa1": ("<", 1, 16),
        b"\xa1\xb2\x3c\x4d": (">", 1, 16), b"\x34\xcd\xb2\xa1": ("<", 1000, 24), b"\xa1\xb2\xcd\x34": (">", 1000, 24)}
SECTION, INTERFACE, OLD_PACKET, SIMPLE_PACKET, STATISTICS, PACKET = 0x0A0D0D0A, 1, 2, 3, 5, 6
READ = frozenset((INTERFACE, OLD_PACKET, SIMPLE_PACKET, STATISTICS, PACKET))
ORDERS = {b"\x4d\x3c\x2b\x1a": "<", b"\x1a\x2b\x3c\x4d": ">"}
# A block's options begin here.
OPTIONS = {INTERFACE: 16, STATISTICS: 20}
RESOLUTION, TIME_OFFSET, DIRECTION, LOST = 9, 14, 2, (5, 7)
INBOUND, OUTBOUND = 1, 2
# No program writes longer frames, or longer blocks of those that are read: a longer one shows a damaged file. Other
# blocks are skipped by pieces.
LONGEST_FRAME, LONGEST_BLOCK, PIECE = 1 << 20, 1 << 21, 1 << 16
# What a `Layout` keeps has limits: pairs of addresses with fragments; sections and interfaces.
MOST_FRAGMENTED, MOST_DESCRIBED = 10_000, 10_000


class Frame(NamedTuple):
    """A captured frame. `length` is what it had on the wire; a snap length may have cut `data`. `interface` and `sent`
    (whether the host sent the frame) are None if the file doesn't show them. `offset` is where its record begins."""
    moment: int
    link: int
    data: bytes
    length: int
    interface: Any
    sent: Any
    offset: int


class Damaged(Exception):
    """The file isn't what its format requires."""


class Ended(Exception):
    """The file ends within a packet or a block."""


class Section:
    """What the records of a file, or of a section of a pcapng file, have in common. `links` has each interface's link
    type, units of a second, and offset in nanoseconds. `nanoseconds` and `head` are only for pcap: those of a fraction,
    and the bytes of a packet's header."""

    def __init__(self, order, links, nanoseconds=None, head=None):
        self.order, self.links, self.nanoseconds, self.head = order, links, nanoseconds, head


class Layout:
    """What reading a file showed: where its sections begin, to read frames again; how many frames it has; the moment
    of the first one; and between which addresses there were fragments."""

    def __init__(self):
        self.starts, self.sections, self.frames, self.first, self.fragmented = [], [], 0, None, set()
        self.described = 0

    def add(self, start, section):
        """Adds the section that begins there."""
        self._describe()
        self.starts.append(start)
        self.sections.append(section)
        return section

    def add_interface(self, section, interface):
        """Adds an interface to a section."""
        self._describe()
        section.links.append(interface)

    def _describe(self):
        self.described += 1
        if self.described > MOST_DESCRIBED:
            raise Damaged(f"more than {MOST_DESCRIBED} sections and interfaces")

    def add_fragment(self, name, source, target):
        """Adds a fragment between these addresses."""
        self.fragmented.add(frozenset((source, target)))
        if len(self.fragmented) > MOST_FRAGMENTED:
            raise Problem(f"{name}: fragments between more than {MOST_FRAGMENTED} pairs of addresses",
                          "capture only your hosts: tcpdump 'tcp and host ADDRESS'")

    def section(self, offset):
        """The section of a record."""
        return self.sections[bisect_right(self.starts, offset) - 1]


def frames_of(name, file, layout):
    """The frames of a file that is at its beginning. After each frame, others that follow may be taken from its
    blocks, if it's given as `Blocks`."""
    blocks = file if isinstance(file, Blocks) else Blocks(file)
    magic = blocks.read(4)
    if magic in PCAP:
        return _pcap(name, blocks, layout, magic)
    if magic == SECTION.to_bytes(4, "big"):
        return _pcapng(name, blocks, layout, magic)
    raise Problem(f"{name}: neither pcap nor pcapng", "give a file that tcpdump -w or Wireshark wrote")


def frame_at(name, file, layout, offset):
    """The frame whose record begins there."""
    section = layout.section(offset)
    file.seek(offset)
    if section.head:
        return _pcap_frame(file, section, file.read(section.head), offset)
    kind, block = _block(file, section, file.read(8))
    frame = _pcapng_frame(name, section, kind, block, offset)
    if frame is None:
        raise Damaged("a block without a packet")
    return frame


def _exactly(file, length):
    """The next bytes of a file."""
    data = file.read(length)
    if len(data) < length:
        raise Ended
    return data


def _known(link, name):
    if link not in LINKS:
        raise Problem(f"{name}: the link type {link} is not supported",
                      "capture Ethernet, Linux cooked (-i any), raw IP or loopback")
    return link


def _pcap(name, file, layout, magic):
    order, nanoseconds, head = PCAP[magic]
    link = struct.unpack(order + "16xI", _exactly(file, 20))[0] & 0xFFFF
    section = layout.add(0, Section(order, [(_known(link, name), None, None)], nanoseconds, head))
    offset = file.offset
    while start := file.read(head):
        yield _pcap_frame(file, section, start, offset)
        offset = file.offset


def _pcap_frame(file, section, start, offset):
    """The frame after these bytes, which are its header."""
    if len(start) < section.head:
        raise Ended
    seconds, fraction, captured, length = struct.unpack_from(section.order + "4I", start)
    if captured > LONGEST_FRAME:
        raise Damaged(f"a packet of {captured} bytes")
    return Frame(seconds * 10**9 + fraction * section.nanoseconds, section.links[0][0], _exactly(file, captured),
                 length, None, None, offset)


def _pcapng(name, file, layout, magic):
    section, offset, head = None, 0, magic + file.read(4)
    while head:
        if head[:4] == SECTION.to_bytes(4, "big"):
            section = _section(file, layout, head, offset)
        else:
            kind, block = _block(file, section, head)
            if kind == INTERFACE:
                layout.add_interface(section, _interface(name, block, section.order))
            elif kind == STATISTICS:
                _refuse_losses(name, block, section.order)
            elif frame := _pcapng_frame(name, section, kind, block, offset):
                yield frame
        offset = file.offset
        head = file.read(8)


def _section(file, layout, head, offset):
    """The section that begins with this header, whose first 8 bytes were read."""
    mark = _exactly(file, 4)
    if mark not in ORDERS:
        raise Damaged("a section without a byte order")
    section = Section(ORDERS[mark], [])
    _, length = _head(section, head)
    _skip(file, section, length, 12)
    return layout.add(offset, section)


def _head(section, head):
    """The kind and the length of a block whose first 8 bytes were read."""
    if len(head) < 8:
        raise Ended
    kind, length = struct.unpack(section.order + "II", head)
    if length < 12 or length % 4:
        raise Damaged(f"a block of {length} bytes")
    return kind, length


def _block(file, section, head):
    """The kind and the bytes of the block whose first 8 bytes were read; no bytes if it is skipped."""
    kind, length = _head(section, head)
    if kind not in READ:
        _skip(file, section, length, 8)
        return kind, b""
    if length > LONGEST_BLOCK:
        raise Damaged(f"a block of {length} bytes")
    block = head + _exactly(file, length - 8)
    if block[-4:] != head[4:]:
        raise Damaged("a block with two lengths")
    return kind, block


def _skip(file, section, length, done):
    """Skips the rest of a block, whose length is repeated at its end."""
    left = length - 4 - done
    if left < 0:
        raise Damaged(f"a block of {length} bytes")
    while left:
        left -= len(_exactly(file, min(left, PIECE)))
    if _exactly(file, 4) != struct.pack(section.order + "I", length):
        raise Damaged("a block with two lengths")


def _pcapng_frame(name, section, kind, block, offset):
    """The frame of a block; None if it has none."""
    if kind == SIMPLE_PACKET:
        raise Problem(f"{name}: simple packet blocks, which have no moments",
                      "record with tcpdump -w, or with Wireshark's defaults")
    if kind not in (PACKET, OLD_PACKET):
        return None
    if len(block) < 32:
        raise Damaged(f"a packet's block of {len(block)} bytes")
    number, high, low, captured, length = struct.unpack_from(section.order + ("5I" if kind == PACKET else "H2x4I"),
                                                             block, 8)
    if captured > len(block) - 32:
        raise Damaged(f"a packet of {captured} bytes in a block of {len(block)}")
    if number >= len(section.links):
        raise Problem(f"{name}: a packet from an interface that the file doesn't describe", "record again")
    link, unit, late = section.links[number]
    options = 28 + (captured + 3) // 4 * 4
    sent = _direction(block, options, section.order) if options + 4 < len(block) else None
    return Frame(late + (high << 32 | low) * 10**9 // unit, link, block[28:28 + captured], length, number, sent, offset)


def _options(block, start, order):
    """The options of a pcapng block: code and value."""
    while start + 4 <= len(block) - 4:
        code, length = struct.unpack_from(order + "HH", block, start)
        if code == 0:
            return
        yield code, block[start + 4:start + 4 + length]
        start += 4 + (length + 3) // 4 * 4


def _number(value, order):
    """An option's number of 4 or 8 bytes, which is signed if it has 8; 0 if the option has another length."""
    form = {4: "I", 8: "q"}.get(len(value))
    return struct.unpack(order + form, value)[0] if form else 0


def _interface(name, block, order):
    """Link type, units of a second, and offset in nanoseconds."""
    if len(block) < 20:
        raise Damaged(f"an interface's block of {len(block)} bytes")
    link, unit, late = struct.unpack_from(order + "H", block, 8)[0], 10**6, 0
    for code, value in _options(block, OPTIONS[INTERFACE], order):
        if code == RESOLUTION and value:
            unit = (2 if value[0] & 0x80 else 10) ** (value[0] & 0x7F)
        elif code == TIME_OFFSET:
            late = _number(value, order) * 10**9
    return _known(link, name), unit, late


def _direction(block, start, order):
    """Whether the options of a packet's block mark it as sent; None if they state no direction."""
    for code, value in _options(block, start, order):
        if code == DIRECTION:
            return {INBOUND: False, OUTBOUND: True}.get(_number(value, order) & 3)
    return None


def _refuse_losses(name, block, order):
    """Refuses a file if an interface's statistics show that the capture lost packets."""
    for code, value in _options(block, OPTIONS[STATISTICS], order):
        if code in LOST and (lost := _number(value, order)):
            raise Problem(f"{name}: the capture lost {lost} packets", BUFFER)
