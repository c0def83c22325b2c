"""Reads the TCP packets of captures: all of a file, one after the other, or one by its offset."""
import functools
import gzip
import struct
import zlib
from ipaddress import ip_address

from ..files import opened
from ..problem import Problem
from ..remedies import NOTHING_SENT, OFFLOADS_OFF, WHOLE_PACKETS
from .blocks import Blocks
from .frames import Damaged, Ended, Layout, frame_at, frames_of
from .layers import CUT, Fragment, LeftOut, segment_in
from .segments import ACK, FLAGS_END, SHORTEST, SYN, header_length, payload, ports

# Of how many ends the printed form is kept.
KEPT = 1 << 12
# Sequence number, acknowledgment number, data offset, flags and checksum of a segment.
_FIELDS = struct.Struct("!4xIIBB2xH").unpack_from


class Packet:
    """A captured segment: its moment in nanoseconds, its source and destination, and its bytes from the TCP header on.
    There, the checksum is 0, since offloads leave it unfinished; `checksum` has it. `number`, `acknowledgment` and
    `flags` (from CWR down to FIN) are those of its header, and `size` is how many bytes follow the header. `captured`
    is the moment that the capture has, also if another one is estimated.

    `outgoing` states whether the capture marked it as sent by its host; None if the file doesn't show it. `missing` is
    how many bytes at the segment's end were not captured: they are zeros in `segment`. `offset` is where its record
    begins in the file; None if the file can't be read again. `identification` is that of IPv4, else 0; `lifetime` is
    the TTL or hop limit; `interface` is the number of the interface, if the file shows it.
    """
    __slots__ = ("moment", "captured", "source", "target", "segment", "outgoing", "capture", "count", "missing",
                 "offset", "identification", "lifetime", "interface", "checksum", "number", "acknowledgment", "flags",
                 "size")

    def __init__(self, moment, source, target, segment, outgoing, capture="", count=0, missing=0, offset=None,
                 identification=0, interface=None, lifetime=None):
        self.moment, self.captured, self.source, self.target = moment, moment, source, target
        if missing:
            segment = bytes(segment) + bytes(missing)
        self.number, self.acknowledgment, head, self.flags, self.checksum = _FIELDS(segment)
        self.size = len(segment) - (head >> 4) * 4
        self.segment, self.outgoing = b"".join((segment[:16], b"\0\0", segment[18:])), outgoing
        self.capture, self.count = capture, count
        self.missing, self.offset = missing, offset
        self.identification, self.lifetime, self.interface = identification, lifetime, interface

    def replace(self, segment):
        """Gives it another segment, whose checksum is 0."""
        self.number, self.acknowledgment, head, self.flags, _ = _FIELDS(segment)
        self.size = len(segment) - (head >> 4) * 4
        self.segment = segment

    def share(self, known):
        """Makes equal addresses and segments one object."""
        self.source = known.setdefault(self.source, self.source)
        self.target = known.setdefault(self.target, self.target)
        self.segment = known.setdefault(self.segment, self.segment)

    @property
    def place(self):
        """Where it was captured."""
        return f"{self.capture}, packet {self.count}"

    @property
    def payload(self):
        """The bytes after the TCP header."""
        return payload(self.segment)

    @property
    def lacks_header(self):
        """Whether the capture cut its TCP header: what was cut is zeros."""
        return self.missing > self.size

    @property
    def is_syn(self):
        """Whether SYN is set, and ACK isn't."""
        return self.flags & (SYN | ACK) == SYN


def read_capture(name, notes, known, may_be_empty=False):
    """The TCP packets of a capture, in the order of the file. Equal addresses and segments of the captures that share
    `known` are one object: the capture of the other host has most segments, too. A segment that the capture cut is
    refused."""
    packets, layout = [], Layout()
    with opened(name, "name a capture that can be read") as file:
        for packet in packets_of(name, file, notes, layout, whole=True):
            packet.share(known)
            packets.append(packet)
    if layout.frames == 0 and not may_be_empty:
        raise Problem(f"{name}: the capture is empty",
                      "start the capture before the programs, at the interface that they use; if all segments were "
                      "lost in transit, name that host's address with --zero or --one",
                      NOTHING_SENT)
    return packets


def packets_of(name, file, notes, layout=None, whole=False, lenient=False):
    """The TCP packets of a capture, in the order of the file, which may be a pipe. None is kept. `layout` becomes what
    `packet_at` needs. If they must be `whole`, a segment of which the capture lacks bytes is refused; else one whose
    header is complete is among the packets. If `lenient`, so is one whose header a snap length cut after the flags, and
    the file may end within a packet, which is noted."""
    layout = Layout() if layout is None else layout
    source = file.file if isinstance(file, Blocks) else file
    again = not isinstance(source, gzip.GzipFile) and source.seekable()
    try:
        for frame in frames_of(name, file, layout):
            layout.frames += 1
            layout.first = frame.moment if layout.first is None else layout.first
            try:
                packet = _packet(frame, name, layout.frames, whole, lenient)
            except LeftOut as reason:
                if isinstance(reason, Fragment):
                    layout.add_fragment(name, *reason.ends)
                notes.leave_out(str(reason), f"{name}, packet {layout.frames}")
                continue
            packet.offset = frame.offset if again else None
            yield packet
    except (Ended, EOFError) as error:
        cause = f"{name}: ends within packet {layout.frames + 1}"
        if not lenient or not layout.frames:
            raise Problem(cause, "stop tcpdump with SIGINT or SIGTERM and wait until it has ended") from error
        notes.say(f"{cause}: the capture was cut there, and is judged up to packet {layout.frames}")
    except (Damaged, zlib.error, OSError) as error:
        raise Problem(f"{name}: {_said(error)} after packet {layout.frames}",
                      "copy the file again, or record again") from error


def _said(error):
    """An error in words; an error of the system has its text without a number."""
    if isinstance(error, zlib.error):
        return "compressed data that is damaged"
    return getattr(error, "strerror", None) or error


def packet_at(name, file, layout, offset, count=0):
    """The packet of a file, read once by `packets_of` with this layout, whose record begins there. `count` is for its
    place."""
    try:
        frame = frame_at(name, file, layout, offset)
        packet = _packet(frame, name, count, False, True)
    except (Damaged, Ended, LeftOut, OSError) as error:
        raise Problem(f"{name}: changed while it was read", "read it when it is complete") from error
    packet.offset = offset
    return packet


def _packet(frame, name, count, whole, lenient):
    """The packet of a frame; its offset isn't set. If `lenient`, a snap length may have cut its header after the
    flags."""
    moment, link, data, length, interface, sent, _ = frame
    source, target, start, end, identification, lifetime, own_interface, own_sent = segment_in(link, data, max(
        length, len(data)))
    segment, wanted = data[start:end], end - start
    captured = len(segment)
    if whole and captured < (least := max(wanted, SHORTEST)):
        raise Problem(f"{name}, packet {count}: {captured} of its {least} bytes were captured", WHOLE_PACKETS,
                      OFFLOADS_OFF)
    head = header_length(segment) if captured > 12 else SHORTEST
    if head < SHORTEST or wanted < head:
        raise LeftOut("segments with a wrong data offset")
    if captured < (FLAGS_END if lenient and len(data) < length else head):
        raise LeftOut(CUT[1])
    own_port, other_port = ports(segment)
    outgoing = sent if own_sent is None else own_sent
    if own_interface is not None:
        interface = own_interface
    return Packet(moment, (source, own_port), (target, other_port), segment, outgoing, name, count, wanted - captured,
                  None, identification, interface, lifetime)


@functools.lru_cache(KEPT)
def shown(end):
    """An address and a port, as they are printed."""
    address = ip_address(end[0])
    return f"[{address}]:{end[1]}" if address.version == 6 else f"{address}:{end[1]}"
