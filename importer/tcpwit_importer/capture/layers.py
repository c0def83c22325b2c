"""Where a frame has its TCP segment: link layer, VLAN tags, IPv4 and IPv6."""
import struct

ETHERNET, COOKED, COOKED_2 = 1, 113, 276
LOOPBACKS = (0, 108)
RAW = (12, 14, 101, 228, 229)
LINKS = frozenset((ETHERNET, COOKED, COOKED_2, *LOOPBACKS, *RAW))
IPV4, IPV6, PPPOE, MPLS = 0x0800, 0x86DD, 0x8864, 0x8847
VLANS = (0x8100, 0x88A8, 0x9100)
PPP = {0x0021: IPV4, 0x0057: IPV6}
SNAP = b"\xaa\xaa\x03\0\0\0"
OUTGOING = 4
TCP, FRAGMENT = 6, 44
# Headers of IPv6 that may precede TCP: hop-by-hop options, routing, fragment, destination options.
EXTENSIONS = (0, 43, FRAGMENT, 60)
# What is left out of a capture whose snap length is too small.
CUT = ("packets whose headers the capture cut", "segments whose TCP headers the capture cut")
# No packet is longer, whatever the capture states.
LONGEST = 1 << 20

_IPV4 = struct.Struct("!BxHHHBB2x4s4s").unpack_from
_IPV6 = struct.Struct("!4xHBB16s16s").unpack_from
_KIND = struct.Struct("!H").unpack_from
_COOKED_2 = struct.Struct("!H2xI2xB").unpack_from


class LeftOut(Exception):
    """A frame without a segment that can be used: what it is, in the plural."""


class Fragment(LeftOut):
    """A fragment of an IP packet with TCP: `ends` has its addresses."""

    def __init__(self, *ends):
        super().__init__("fragments of IP packets")
        self.ends = ends


def segment_in(link, frame, length):
    """Where a frame that had this length has its segment: the addresses of its packet, where it begins in the frame,
    where it ends on the wire, IPv4's identification (0 for IPv6), the TTL or hop limit, the number of the interface,
    and whether the frame is marked as sent by its host. The last two are None if the link's header doesn't show
    them."""
    try:
        kind, at, interface, sent = _link(link, frame)
        if kind == IPV4:
            return *_ipv4(frame, at, length), interface, sent
        if kind == IPV6:
            return *_ipv6(frame, at, length), interface, sent
    except (struct.error, IndexError):
        raise LeftOut(CUT[0] if len(frame) < length else "packets that end within their headers") from None
    raise LeftOut("packets that are neither IPv4 nor IPv6")


def _link(link, frame):
    """The kind of a frame's packet, where it begins, the interface, and whether the host sent it."""
    if link == ETHERNET:
        kind = _KIND(frame, 12)[0]
        return (kind, 14, None, None) if kind == IPV4 else (*_tagged(frame, kind, 14), None, None)
    if link == COOKED:
        return *_tagged(frame, _KIND(frame, 14)[0], 16), None, _KIND(frame)[0] == OUTGOING
    if link == COOKED_2:
        kind, interface, direction = _COOKED_2(frame)
        return *_tagged(frame, kind, 20), interface, direction == OUTGOING
    at = 4 if link in LOOPBACKS else 0
    return _version(frame, at), at, None, None


def _version(frame, at):
    """The kind of a packet whose link doesn't state it."""
    return {4: IPV4, 6: IPV6}.get(frame[at] >> 4)


def _tagged(frame, kind, at):
    """The kind of a packet and where it begins, after VLAN tags and the headers of other link protocols."""
    while kind in VLANS:
        kind, at = _KIND(frame, at + 2)[0], at + 4
    if kind == PPPOE:
        return PPP.get(_KIND(frame, at + 6)[0]), at + 8
    if kind == MPLS:
        while not frame[at + 2] & 1:
            at += 4
        return _version(frame, at + 4), at + 4
    if kind <= 1500 and frame[at:at + 6] == SNAP:
        return _KIND(frame, at + 6)[0], at + 8
    return kind, at


def _ipv4(frame, at, length):
    """The addresses of a packet, the beginning and the end of its segment, its identification, and its TTL."""
    first, total, identification, fragment, lifetime, protocol, source, target = _IPV4(frame, at)
    start = at + (first & 15) * 4
    # A segment that an offload will cut may have no length yet: it is the rest of the frame.
    end = at + total if total else length
    if first >> 4 != 4 or start < at + 20 or not start <= end <= at + LONGEST:
        raise LeftOut("packets with wrong lengths in their IP headers")
    if protocol != TCP:
        raise LeftOut("packets that are not TCP")
    if fragment & 0x3FFF:
        raise Fragment(source, target)
    return source, target, start, end, identification, lifetime


def _ipv6(frame, at, length):
    """The same of an IPv6 packet."""
    payload, protocol, lifetime, source, target = _IPV6(frame, at)
    start = at + 40
    end = start + payload if payload else length
    if frame[at] >> 4 != 6:
        raise LeftOut("packets with wrong lengths in their IP headers")
    fragment = 0
    while not fragment and protocol in EXTENSIONS:
        if protocol == FRAGMENT:
            fragment = _KIND(frame, start + 2)[0] & 0xFFF9
        protocol, start = frame[start], start + (8 if protocol == FRAGMENT else (frame[start + 1] + 1) * 8)
    if protocol != TCP:
        raise LeftOut("packets that are not TCP")
    if fragment:
        raise Fragment(source, target)
    if not start <= end <= at + LONGEST:
        raise LeftOut("packets with wrong lengths in their IP headers")
    return source, target, start, end, 0, lifetime
