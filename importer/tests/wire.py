"""Small connections, captures and logs for the tests."""
import io
import socket
import struct

from tcpwit_importer.calls.strace_log import read_log
from tcpwit_importer.capture.packets import packets_of
from tcpwit_importer.capture.segments import ACK, FIN, SYN
from tcpwit_importer.problem import Notes

ZERO, ONE = ("10.9.0.1", 4000), ("10.9.0.2", 80)
SECOND = 10**9


def packed(address):
    """An address as bytes."""
    return socket.inet_pton(socket.AF_INET6 if ":" in address else socket.AF_INET, address)


def segment(source, target, number, acknowledgment, flags, payload=b"", options=b"", window=1000, checksum=7):
    """The bytes of a TCP segment."""
    offset = (20 + len(options)) // 4 << 4
    return struct.pack("!HHIIBBHHH", source[1], target[1], number % 2**32, acknowledgment % 2**32, offset, flags,
                       window, checksum, 0) + options + payload


def ip_packet(source, target, bytes_of_segment):
    """An IPv4 or IPv6 packet with a segment."""
    if ":" in source[0]:
        head = struct.pack("!IHBB", 6 << 28, len(bytes_of_segment), 6, 64) + packed(source[0]) + packed(target[0])
        return head + bytes_of_segment
    head = struct.pack("!BBHHHBBH", 0x45, 0, 20 + len(bytes_of_segment), 1, 0, 64, 6,
                       0) + packed(source[0]) + packed(target[0])
    return head + bytes_of_segment


def ethernet(packet):
    """A frame with a packet."""
    return bytes(12) + (b"\x86\xdd" if packet[0] >> 4 == 6 else b"\x08\x00") + packet


def pcap(name, frames, link=1, nano=True):
    """Writes a pcap file of (moment in nanoseconds, frame)."""
    with open(name, "wb") as file:
        file.write(pcap_bytes(frames, link, nano))


def pcap_bytes(frames, link=1, nano=True):
    """The bytes of a pcap file."""
    parts = [struct.pack("<IHHiIII", 0xA1B23C4D if nano else 0xA1B2C3D4, 2, 4, 0, 0, 262144, link)]
    for moment, frame in frames:
        part = moment % SECOND // (1 if nano else 1000)
        parts.append(struct.pack("<IIII", moment // SECOND, part, len(frame), len(frame)) + frame)
    return b"".join(parts)


SIZE = b"\x02\x04\x05\xb4"


class Talk:
    """A connection as both captures show it: each segment is in transit for 1 ms. `at` is the moment."""

    def __init__(self, zero=ZERO, one=ONE, at=100 * SECOND, options=SIZE):
        self.zero, self.one, self.at = zero, one, at
        self.frames = {0: [], 1: []}
        self.next = {0: 1000, 1: 5000}
        self.syn(options)

    def syn(self, options):
        """Adds the three segments of the handshake."""
        self.send(0, SYN, options=options)
        self.send(1, SYN | ACK, options=options)
        self.send(0, ACK)

    def send(self, host, flags=ACK, payload=b"", options=b"", lost=False, take=None):
        """Adds a segment of a host; `take` is what the other host's capture shows instead."""
        ends = (self.zero, self.one) if host == 0 else (self.one, self.zero)
        acknowledgment = self.next[1 - host] if flags & ACK else 0
        made = segment(*ends, self.next[host], acknowledgment, flags, payload, options)
        self.frames[host].append((self.at, ethernet(ip_packet(*ends, made))))
        if not lost:
            for part in take or [made]:
                self.frames[1 - host].append((self.at + 10**6, ethernet(ip_packet(*ends, part))))
        self.next[host] += len(payload) + bool(flags & (SYN | FIN))
        self.at += 2 * 10**6

    def write(self, folder):
        """Writes both captures. Returns the importer's arguments."""
        for host in (0, 1):
            pcap(f"{folder}/c{host}.pcap", self.frames[host])
        return ["--capture", "0", f"{folder}/c0.pcap", "--capture", "1", f"{folder}/c1.pcap"]


def log(name, lines):
    """Writes a log of (process, moment in nanoseconds, text)."""
    with open(name, "w", encoding="ascii") as file:
        for process, moment, text in lines:
            file.write(f"{process} {moment // SECOND}.{moment % SECOND:09d} {text}\n")


def events(folder, lines):
    """The events of a log."""
    log(f"{folder}/events.log", lines)
    return read_log([f"{folder}/events.log"])


def address(end, family="AF_INET"):
    """A socket address as strace prints it."""
    if family == "AF_INET6":
        return f"{{sa_family=AF_INET6, sin6_port=htons({end[1]}), sin6_flowinfo=htonl(0), " \
            f'inet_pton(AF_INET6, "{end[0]}", &sin6_addr), sin6_scope_id=0}}'
    return f'{{sa_family=AF_INET, sin_port=htons({end[1]}), sin_addr=inet_addr("{end[0]}")}}'


def packets(talk, host):
    """The packets of one capture, without a file."""
    return list(packets_of("capture", io.BytesIO(pcap_bytes(talk.frames[host])), Notes()))
