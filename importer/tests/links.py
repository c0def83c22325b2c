"""Captures of all kinds for the tests: packets with options and extension headers, frames of each link, and files of
each format."""
import struct

from .wire import SECOND, packed

ETHERNET, COOKED, COOKED_2, RAW, NULL, LOOP = 1, 113, 276, 101, 0, 108
HOP_BY_HOP, ROUTING, FRAGMENT, DESTINATION = 0, 43, 44, 60
OUT, IN = 4, 0


# Packets.

def v4(source, target, body, options=b"", identification=1, fragment=0, total=None, protocol=6):
    """An IPv4 packet; `total` is the length that its header states."""
    length = 20 + len(options) + len(body) if total is None else total
    head = struct.pack("!BBHHHBBH", 0x45 + len(options) // 4, 0, length, identification, fragment, 64, protocol, 0)
    return head + packed(source[0]) + packed(target[0]) + options + body


def v6(source, target, body, extensions=(), payload=None):
    """An IPv6 packet; `extensions` are pairs of a kind and the header's bytes after its first."""
    kinds = [kind for kind, _ in extensions] + [6]
    body = b"".join(bytes([kinds[at + 1]]) + rest for at, (_, rest) in enumerate(extensions)) + body
    head = struct.pack("!IHBB", 6 << 28, len(body) if payload is None else payload, kinds[0], 64)
    return head + packed(source[0]) + packed(target[0]) + body


def options_of_6(length=8):
    """A header of hop-by-hop or destination options without its first byte: padding of this length."""
    return bytes([length // 8 - 1, 1, length - 4]) + bytes(length - 4)


def routing():
    """A segment routing header with one address, without its first byte."""
    return bytes([2, 4, 0, 0, 0, 0, 0]) + packed("fd09::3")


def fragment_of_6(offset=0, more=False):
    """A fragment header without its first byte."""
    return b"\0" + struct.pack("!HI", offset | more, 77)


# Frames.

def kind_of(packet):
    """A packet's type in a frame."""
    return b"\x86\xdd" if packet[0] >> 4 == 6 else b"\x08\x00"


def ethernet(packet, tags=(), padded=False):
    """An Ethernet frame with tags, which are pairs of type and number."""
    frame = bytes(12) + b"".join(struct.pack("!HH", *tag) for tag in tags) + kind_of(packet) + packet
    return frame.ljust(60, b"\xaa") if padded else frame


def pppoe(packet):
    """An Ethernet frame of a PPPoE session."""
    protocol = b"\0\x57" if packet[0] >> 4 == 6 else b"\0\x21"
    return bytes(12) + b"\x88\x64" + struct.pack("!BBHH", 0x11, 0, 1, len(packet) + 2) + protocol + packet


def mpls(packet):
    """An Ethernet frame with two labels."""
    return bytes(12) + b"\x88\x47" + struct.pack("!II", 16 << 12 | 64, 17 << 12 | 1 << 8 | 64) + packet


def snap(packet):
    """An IEEE 802.3 frame."""
    return bytes(12) + struct.pack("!H", len(packet) + 8) + b"\xaa\xaa\x03\0\0\0" + kind_of(packet) + packet


def cooked(packet, direction=IN, tag=None):
    """A frame of `-i any`."""
    kind = kind_of(packet) if tag is None else b"\x81\x00" + struct.pack("!H", tag) + kind_of(packet)
    return struct.pack("!HHH8s", direction, 1, 6, b"") + kind + packet


def cooked_2(packet, direction=IN, interface=2):
    """A frame of `-i any` with the number of its interface."""
    return kind_of(packet) + struct.pack("!HiHBB8s", 0, interface, 1, direction, 6, b"") + packet


def null(packet, order="<"):
    """A frame of the loopback interface of BSD; macOS numbers IPv6 30."""
    return struct.pack(order + "I", 30 if packet[0] >> 4 == 6 else 2) + packet


# Files. A frame is a moment in nanoseconds and bytes; one that the capture cut has its length as third member.

def cut(frame, snap_length):
    """What a snap length leaves of a frame: its bytes and its length."""
    return frame[:snap_length], len(frame)


def pcap_file(frames, link=ETHERNET, order="<", nano=True, modified=False):
    """A pcap file; a modified one has longer headers."""
    magic = 0xA1B2CD34 if modified else 0xA1B23C4D if nano else 0xA1B2C3D4
    parts = [struct.pack(order + "IHHiIII", magic, 2, 4, 0, 0, 262144, link)]
    for moment, frame, *length in frames:
        fraction = moment % SECOND // (1 if nano and not modified else 1000)
        parts += [struct.pack(order + "IIII", moment // SECOND, fraction, len(frame), *length or [len(frame)]),
                  bytes(8 if modified else 0), frame]
    return b"".join(parts)


def block(kind, body, order="<"):
    """A block of pcapng."""
    body += bytes(-len(body) % 4)
    return struct.pack(order + "II", kind, len(body) + 12) + body + struct.pack(order + "I", len(body) + 12)


def option(code, value, order="<"):
    """An option of a block."""
    return struct.pack(order + "HH", code, len(value)) + value + bytes(-len(value) % 4)


def section(order="<", interfaces=()):
    """The beginning of a section of pcapng; `interfaces` are pairs of a link and the resolution option's byte."""
    text = block(0x0A0D0D0A, struct.pack(order + "IHHq", 0x1A2B3C4D, 1, 0, -1), order)
    for link, resolution in interfaces:
        text += interface(link, option(9, bytes([resolution]), order), order)
    return text


def interface(link, options=b"", order="<"):
    """The block of an interface."""
    return block(1, struct.pack(order + "HHI", link, 0, 0) + options + bytes(4), order)


def enhanced(number, units, frame, length=None, options=b"", order="<"):
    """A packet of an interface; `units` is its moment in those of the interface."""
    head = struct.pack(order + "5I", number, units >> 32, units & 0xFFFFFFFF, len(frame), length or len(frame))
    return block(6, head + frame + bytes(-len(frame) % 4) + (options + bytes(4) if options else b""), order)


def obsolete(number, units, frame, order="<"):
    """A packet in the form of old files."""
    head = struct.pack(order + "HH4I", number, 0, units >> 32, units & 0xFFFFFFFF, len(frame), len(frame))
    return block(2, head + frame, order)


def simple(frame, order="<"):
    """A packet without a moment."""
    return block(3, struct.pack(order + "I", len(frame)) + frame, order)


def statistics(lost, order="<"):
    """The statistics of an interface that lost this many packets."""
    return block(5, struct.pack(order + "III", 0, 0, 0) + option(5, struct.pack(order + "Q", lost), order) + bytes(4),
                 order)
