"""Reads usual packets fast: complete TCP headers in whole IPv4 packets without options or IPv6 packets without
extension headers, directly after the header of a link; in pcap files, or in pcapng blocks without options.

`frames.py`, `layers.py` and `packets.py` read all packets, and so what is not usual, or damaged. What is read here is
the same, which a test compares for captures of each kind.
"""
import struct

from .blocks import Blocks
from .frames import PACKET
from .layers import COOKED, COOKED_2, ETHERNET, IPV4, IPV6, LOOPBACKS, OUTGOING, RAW, TCP
from .packets import Packet, packet_at
from .segments import SHORTEST

# Where the header of each link has the kind of its packet, if it has one, and how long it is.
HEADS = {ETHERNET: (12, 14), COOKED: (14, 16), COOKED_2: (0, 20), **dict.fromkeys(LOOPBACKS, (None, 4)),
         **dict.fromkeys(RAW, (None, 0))}
# The bytes of both IP headers.
SHORT, LONG = 20, 40
# How the header of a cooked link begins if its host sent the packet.
SENT = OUTGOING.to_bytes(2, "big")
# The bytes of a block without a packet's.
EMPTY = 32

# Of an IP header and the first 20 bytes of the TCP header after it.
_IPV4 = struct.Struct("!BxHHHBB22xBB6x").unpack_from
_IPV6 = struct.Struct("!4xHBB44xBB6x").unpack_from
_PORTS = struct.Struct("!HH").unpack_from
_COOKED_2 = struct.Struct("!4xI2xB").unpack_from


def reader_of(section):
    """A function that takes a record with a packet from a block at a place: where the next one begins; where its frame
    begins and ends; its moment, link and interface. It returns None if the block doesn't have all of it, or if it isn't
    usual."""
    return _pcap(section) if section.head else _pcapng(section)


def _pcap(section):
    fields, head, nanoseconds = struct.Struct(section.order + "III").unpack_from, section.head, section.nanoseconds
    link = section.links[0][0]

    def read(block, at):
        begin = at + head
        if begin > len(block):
            return None
        seconds, fraction, captured = fields(block, at)
        end = begin + captured
        if end > len(block):
            return None
        return end, begin, end, seconds * 10**9 + fraction * nanoseconds, link, None
    return read


def _pcapng(section):
    fields, last = struct.Struct(section.order + "6I").unpack_from, struct.Struct(section.order + "I").unpack_from
    links = section.links

    def read(block, at):
        begin = at + 28
        if begin > len(block):
            return None
        kind, length, number, high, low, captured = fields(block, at)
        end = at + length
        if (kind != PACKET or length != EMPTY + (captured + 3 & ~3) or end > len(block) or number >= len(links)
                or last(block, end - 4)[0] != length):
            return None
        link, unit, late = links[number]
        return end, begin, begin + captured, late + (high << 32 | low) * 10**9 // unit, link, number
    return read


def segment_at(block, begin, end, link):
    """The usual segment of a frame: the bytes of its addresses and ports, where it begins, and where it ends on the
    wire; its length without its header, and its flags; IPv4's identification (else 0), and the TTL or hop limit; the
    number of the interface, and whether the host sent it, both None if the link's header doesn't show them. None if it
    isn't usual."""
    kind_at, length = HEADS[link]
    ip = begin + length
    start = ip + SHORT
    if start + SHORTEST > end:
        return None
    first, total, identification, fragment, lifetime, protocol, head, flags = _IPV4(block, ip)
    kind = _version(first) if kind_at is None else block[begin + kind_at] << 8 | block[begin + kind_at + 1]
    if kind == IPV4:
        if first != 0x45 or fragment & 0x3FFF:
            return None
        ends, stop = block[ip + 12:ip + 24], ip + total
    elif kind == IPV6 and first >> 4 == 6 and ip + LONG + SHORTEST <= end:
        total, protocol, lifetime, head, flags = _IPV6(block, ip)
        start = ip + LONG
        ends, stop, identification = block[ip + 8:ip + 44], start + total, 0
    else:
        return None
    payload = start + (head >> 4) * 4
    if protocol != TCP or payload < start + SHORTEST or payload > end or payload > stop:
        return None
    if link == COOKED:
        return ends, start, stop, stop - payload, flags, identification, lifetime, None, block[begin:begin + 2] == SENT
    if link == COOKED_2:
        interface, sent = _COOKED_2(block, begin)
        return ends, start, stop, stop - payload, flags, identification, lifetime, interface, sent == OUTGOING
    return ends, start, stop, stop - payload, flags, identification, lifetime, None, None


def _version(first):
    """The kind of a packet whose link doesn't state it."""
    return {4: IPV4, 6: IPV6}.get(first >> 4)


def packets_again(name, file, layout, offsets, counts):
    """The packets of a file, read once with this layout, whose records begin at these offsets. `counts` are for their
    places. All packets are of one connection."""
    blocks, known, section = Blocks(file), {}, layout.sections[0]
    read, is_only = reader_of(section), len(layout.sections) == 1
    for offset, count in zip(offsets, counts):
        if not is_only and section is not layout.section(offset):
            section = layout.section(offset)
            read = reader_of(section)
        blocks.go_to(offset)
        record = read(blocks.block, blocks.at)
        if record is None:
            blocks.load(offset)
            record = read(blocks.block, 0)
        usual = record and segment_at(blocks.block, *record[1:3], record[4])
        if not usual:
            yield packet_at(name, file, layout, offset, count)
            continue
        if usual[0] not in known:
            known[usual[0]] = ends_of(usual[0])
        yield packet_of(name, blocks.block, record, usual, known[usual[0]], offset, count)


def packet_of(name, block, record, usual, ends, offset, count):
    """The packet of a record with a usual segment, which has these ends."""
    _, _, end, moment, _, interface = record
    _, start, stop, _, _, identification, lifetime, own_interface, sent = usual
    if own_interface is not None:
        interface = own_interface
    if stop > end:
        missing, stop = stop - end, end
    else:
        missing = 0
    segment = memoryview(block)[start:stop]
    return Packet(moment, *ends, segment, sent, name, count, missing, offset, identification, interface, lifetime)


def ends_of(ends):
    """The source and the target, each with its address and its port, of the bytes of both addresses and both ports."""
    size = len(ends) // 2 - 2
    source, target = _PORTS(ends, 2 * size)
    return (ends[:size], source), (ends[size:2 * size], target)


def bytes_of(source, target):
    """The bytes of both addresses and both ports."""
    return source[0] + target[0] + struct.pack("!HH", source[1], target[1])
