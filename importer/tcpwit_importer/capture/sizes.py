"""How large the segments of an end were on the wire, and what shows it.

An offload joins segments of one size, which is at most the peer's MSS. So what a host sends without a pause is a
multiple of this size: only the end of what the program wrote, where PSH is, may be shorter. If such lengths have a
common divisor that fits a frame of Ethernet, and that segments of up to the MSS can't add up to, it's their size.
"""
from itertools import pairwise
from math import gcd
from typing import Any, NamedTuple

from .connections import USUAL_SIZE, size_option
from .segments import FIN, PSH, RST, SYN, URG, WRAP, header_length

# Why the sizes of an end's segments are judged: the user says that none was enlarged, the lengths show it, or none is
# above the peer's MSS.
WIRE, LENGTHS, FITS = "wire", "lengths", "fits"
# Why they aren't: an offload may have enlarged those above the MSS, or no capture shows the MSS.
OFFLOAD, UNKNOWN = "offload", "unknown"
# The most bytes of an IP packet on Ethernet, and of a TCP header's options.
ETHERNET, OPTIONS = 1500, 40
# How many lengths must agree.
LEAST = 3
# More than any segment has.
ANY = 1 << 32


class Size(NamedTuple):
    """Why the sizes of an end's segments are judged, or aren't; and the most bytes that one has on the wire, or None if
    that's what both hosts agreed on."""
    why: str
    largest: Any = None


def sizes_of(connection, captures, wire):
    """The size of each recorded end. With `wire`, no capture shows segments that an offload enlarged."""
    names = {end: captures.get(host, captures.get(None)) for end, host in connection.hosts.items()}
    return {end: size_in(connection.seen.get(name, ()), end, wire) for end, name in names.items() if name is not None}


def size_in(packets, end, wire):
    """The size of an end, from the packets of its capture. Of several SYNs of the peer, the greatest MSS counts."""
    if wire:
        return Size(WIRE, ANY)
    most = largest = 0
    for packet in packets:
        if packet.source == end:
            largest = max(largest, packet.size)
        elif packet.flags & SYN:
            most = max(most, size_option(packet.segment) or USUAL_SIZE)
    if largest <= most:
        return Size(FITS)
    if not most:
        return Size(UNKNOWN)
    size = common_size(packets, end, most)
    return Size(OFFLOAD) if size is None else Size(LENGTHS, size)


def common_size(packets, end, most):
    """The size above the peer's MSS of which segments without a pause are multiples; None if there's none, or if
    offloads explain it."""
    count = size = 0
    room = ETHERNET
    for packet in without_pause(packets, end):
        if packet.size > most:
            count, size = count + 1, gcd(size, packet.size)
            room = min(room, ETHERNET - header_length(packet.segment) - (40 if len(end[0]) == 16 else 20))
    return size if count >= LEAST and most < size <= room and not are_joined(size, most) else None


def without_pause(packets, end):
    """The segments of an end that it continued at once: the next packet has the next bytes, and no PSH or FIN ends what
    the program wrote."""
    for one, two in pairwise(packets):
        if (one.source == two.source == end and not one.flags & (SYN | FIN | RST | PSH | URG)
                and two.size and (one.number + one.size) % WRAP == two.number):
            yield one


def are_joined(size, most):
    """Whether equal segments may add up to a size: each has at most the MSS, and lacks at most the options. A path MTU
    may make them smaller, but below a frame's room, only one of less than 800 explains two of them."""
    return -(-size // most) * (most - OPTIONS) <= size
