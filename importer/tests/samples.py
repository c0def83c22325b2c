"""A capture of each kind that the importer reads, by name: a small connection in frames of each link and files of each
format."""
from tcpwit_importer.capture.segments import ACK, FIN, PSH, SYN

from . import links
from .wire import ONE, SECOND, SIZE, ZERO, segment

SIX = ("fd09::1", 4000), ("fd09::2", 80)
MOMENT = 1_700_000_000 * SECOND + 123_456_789


def talk(ends=(ZERO, ONE), port=0):
    """The segments of a connection: who sends, and bytes."""
    client, server = (ends[0][0], ends[0][1] + port), ends[1]
    rows = [(0, 1000, 0, SYN, b"", SIZE), (1, 5000, 1001, SYN | ACK, b"", SIZE), (0, 1001, 5001, ACK, b"", b""),
            (0, 1001, 5001, ACK | PSH, b"hello", b""), (1, 5001, 1006, ACK, b"", b""),
            (1, 5001, 1006, ACK | PSH, bytes(range(200)) * 5, b""),
            (0, 1006, 6001, ACK | FIN, b"", b""), (1, 6001, 1007, ACK | FIN, b"", b""), (0, 1007, 6002, ACK, b"", b"")]
    for host, number, acknowledgment, flags, payload, options in rows:
        pair = (client, server) if host == 0 else (server, client)
        yield pair, segment(*pair, number, acknowledgment, flags, payload, options)


def frames(build, ends=(ZERO, ONE), port=0, step=2 * 10**6):
    """The connection's frames with their moments. `build` makes one of who sends and the segment."""
    return [(MOMENT + at * step, build(pair, body)) for at, (pair, body) in enumerate(talk(ends, port))]


def packet(pair, body):
    """An IP packet."""
    return (links.v6 if ":" in pair[0][0] else links.v4)(*pair, body)


def with_link(build):
    """A builder of frames with this link's header."""
    return lambda pair, body: build(packet(pair, body))


LONG = b"\x94\x04\0\0" + b"\x07\x07\x04" + bytes(4) + b"\x01"
PACKETS = {
    "IPv4 with options": lambda pair, body: links.v4(*pair, body, options=LONG),
    "IPv4 without a length": lambda pair, body: links.v4(*pair, body, total=0),
    "IPv6 with hop-by-hop options": lambda pair, body: links.v6(*pair, body, [
        (links.HOP_BY_HOP, links.options_of_6())]),
    "IPv6 with destination options": lambda pair, body: links.v6(*pair, body, [
        (links.DESTINATION, links.options_of_6(24))]),
    "IPv6 with a routing header": lambda pair, body: links.v6(*pair, body, [(links.ROUTING, links.routing())]),
    "IPv6 with several headers": lambda pair, body: links.v6(*pair, body, [
        (links.HOP_BY_HOP, links.options_of_6(16)), (links.DESTINATION, links.options_of_6()),
        (links.ROUTING, links.routing()),
        (links.FRAGMENT, links.fragment_of_6()), (links.DESTINATION, links.options_of_6())]),
    "IPv6 in one fragment": lambda pair, body: links.v6(*pair, body, [(links.FRAGMENT, links.fragment_of_6())]),
}
LINKS = {
    "Ethernet": (1, with_link(links.ethernet)),
    "padded Ethernet": (1, with_link(lambda packet: links.ethernet(packet, padded=True))),
    "VLAN": (1, with_link(lambda packet: links.ethernet(packet, [(0x8100, 5)]))),
    "QinQ": (1, with_link(lambda packet: links.ethernet(packet, [(0x88A8, 5), (0x8100, 6)]))),
    "old QinQ": (1, with_link(lambda packet: links.ethernet(packet, [(0x9100, 5), (0x8100, 6)], padded=True))),
    "PPPoE": (1, with_link(links.pppoe)),
    "MPLS": (1, with_link(links.mpls)),
    "IEEE 802.3": (1, with_link(links.snap)),
    "cooked": (113, with_link(links.cooked)),
    "cooked with VLAN": (113, with_link(lambda packet: links.cooked(packet, links.OUT, 5))),
    "cooked 2": (276, with_link(links.cooked_2)),
    "raw": (101, with_link(bytes)),
    "raw of BSD": (12, with_link(bytes)),
    "raw of OpenBSD": (14, with_link(bytes)),
    "loopback": (0, with_link(links.null)),
    "loopback of a big-endian machine": (0, with_link(lambda packet: links.null(packet, ">"))),
    "loopback of OpenBSD": (108, with_link(lambda packet: links.null(packet, ">"))),
}


def of_links():
    """Frames of each link, with IPv4 and with IPv6: name, link, frames. Each connection has ports of its own."""
    for port, (name, (link, build)) in enumerate(LINKS.items()):
        yield f"{name}, IPv4", link, frames(build, (ZERO, ONE), port)
        yield f"{name}, IPv6", link, frames(build, SIX, port)
    yield "raw IPv4", 228, frames(packet, (ZERO, ONE), len(LINKS))
    yield "raw IPv6", 229, frames(packet, SIX, len(LINKS))


def of_packets():
    """Frames with each kind of IP header, with fragments among them, and of a capture that cut payload."""
    for port, (name, build) in enumerate(PACKETS.items(), 100):
        ends = SIX if "IPv6" in name else (ZERO, ONE)
        yield name, 1, frames(lambda pair, body, build=build: links.ethernet(build(pair, body)), ends, port)
    whole = frames(with_link(links.ethernet), port=98)
    yield "fragments", 1, [*whole[:3], *fragments(), *whole[3:]]
    yield "-s 96", 1, [(moment, *links.cut(frame, 96)) for moment, frame in frames(with_link(links.ethernet), port=99)]


def together():
    """All of them in a pcapng file."""
    kinds = [*of_links(), *of_packets()]
    return links.section("<", [(link, 9) for _, link, _ in kinds]) + b"".join(
        links.enhanced(number, moment, *frame)
        for number, (_, _, found) in enumerate(kinds) for moment, *frame in found)


def fragments():
    """Two fragments of an IPv4 packet, and two of an IPv6 packet."""
    body = segment(ZERO, ONE, 1, 1, ACK, bytes(400))
    for at, more in ((0, 0x2000), (1, 0)):
        part, of_6 = body[at * 208:][:208], [(links.FRAGMENT, links.fragment_of_6(at * 208, not at))]
        yield MOMENT, links.ethernet(links.v4(ZERO, ONE, part, identification=9, fragment=more | at * 26))
        yield MOMENT, links.ethernet(links.v6(*SIX, part, of_6))


def of_files():
    """A capture of each variant of both formats."""
    whole = frames(with_link(links.ethernet))
    for order in "<>":
        byte_order = "little" if order == "<" else "big"
        for nano in (True, False):
            unit = "nanoseconds" if nano else "microseconds"
            yield f"pcap, {byte_order}, {unit}", links.pcap_file(whole, 1, order, nano)
        yield f"modified pcap, {byte_order}", links.pcap_file(whole, 1, order, modified=True)
        yield f"pcapng, {byte_order}", several_interfaces(order)
        yield f"obsolete pcapng, {byte_order}", links.section(order, [(1, 6)]) + b"".join(
            links.obsolete(0, moment // 1000, frame, order) for moment, frame in whole)
    yield "pcapng, sections", several_interfaces("<") + several_interfaces(">") + links.section("<", [(1, 6)])


def several_interfaces(order):
    """A pcapng file with interfaces of several links and resolutions, blocks of other kinds, and directions."""
    parts = [links.section(order, [(1, 6), (101, 9)]), links.block(4, bytes(4), order)]
    ethernet, raw = frames(with_link(links.ethernet)), frames(packet, port=1)
    cooked = frames(with_link(links.cooked_2), port=2)
    for at, ((moment, one), (_, two), (_, three)) in enumerate(zip(ethernet, raw, cooked)):
        sent = links.option(2, (2).to_bytes(4, "little" if order == "<" else "big"), order)
        parts.append(links.enhanced(0, moment // 1000, one, None, sent, order))
        parts.append(links.enhanced(1, moment + 1, two, order=order))
        if at == 2:
            parts.append(links.interface(276, links.option(9, b"\x94", order), order) + links.block(4, bytes(8), order))
        if at >= 2:
            parts.append(links.enhanced(2, (moment << 20) // SECOND, three, order=order))
    return b"".join(parts) + links.statistics(0, order)


def of_ports():
    """One capture in which ports are used again, a connection whose beginning is missing, and several at the same
    time."""
    first = frames(with_link(links.ethernet))
    again = [(moment + SECOND, links.ethernet(packet(pair, body[:4] + bytes([9]) + body[5:])))
             for (moment, _), (pair, body) in zip(first, talk())]
    others = frames(with_link(links.ethernet), port=7) + frames(with_link(links.ethernet), SIX, 8)[4:]
    return links.pcap_file(sorted([*first, *again, *others], key=lambda frame: frame[0]))


def every():
    """All captures: names and bytes."""
    for name, link, found in [*of_links(), *of_packets()]:
        yield name, links.pcap_file(found, link)
    yield from of_files()
    yield "ports used again", of_ports()
