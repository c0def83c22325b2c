"""Damages captures at random: what reads them must give packets or a Problem."""
import gzip
import io
import random
import struct

from tcpwit_importer.capture.connections import connections_of
from tcpwit_importer.capture.copies import without_copies
from tcpwit_importer.capture.frames import Layout
from tcpwit_importer.capture.packets import packet_at, packets_of
from tcpwit_importer.files import opened
from tcpwit_importer.problem import Notes, Problem

LENGTHS = (0, 1, 4, 11, 12, 19, 20, 28, 32, 0x7F, 0xFF, 0xFFFF, 0x10000, 0x7FFFFFFF, 0x80000000, 0xFFFFFFFC, 0xFFFFFFFF)


def flipped(data, dice):
    """With some bytes changed."""
    data = bytearray(data)
    for _ in range(dice.choice((1, 1, 2, 5, 30))):
        data[dice.randrange(len(data))] = dice.choice((0, 0xFF, dice.randrange(256)))
    return bytes(data)


def with_length(data, dice):
    """With another length, of two or four bytes."""
    at = dice.randrange(max(1, len(data) // 2)) * 2
    form = dice.choice(("<I", ">I", "<H", ">H"))
    value = dice.choice(LENGTHS) & (0xFFFF if form[1] == "H" else 0xFFFFFFFF)
    return data[:at] + struct.pack(form, value) + data[at + struct.calcsize(form):]


def truncated(data, dice):
    """Without its end."""
    return data[:dice.randrange(len(data))]


def repeated(data, dice):
    """With a part of it twice, or somewhere else."""
    start, size, at = dice.randrange(len(data)), dice.choice((1, 4, 16, 60, 500)), dice.randrange(len(data))
    return data[:at] + data[start:start + size] + data[at:]


def without(data, dice):
    """Without a part of it."""
    start = dice.randrange(len(data))
    return data[:start] + data[start + dice.choice((1, 2, 4, 16, 60)):]


def with_record_again(data, dice):
    """With a record or a block a second time."""
    try:
        starts = [packet.offset for packet in packets_of("", io.BytesIO(data), Notes())] + [len(data)]
    except Problem:
        return data
    number, at = dice.randrange(len(starts)), dice.choice(starts)
    return data[:at] + data[starts[number - 1]:starts[number]] + data[at:]


CHANGES = (flipped, flipped, with_length, with_length, truncated, repeated, with_record_again, without)


def damaged(data, dice):
    """A damaged capture, which gzip may have compressed before or after."""
    compressed = dice.random()
    if compressed < 0.05:
        data = gzip.compress(data)
    for _ in range(dice.choice((1, 1, 2, 4))):
        data = dice.choice(CHANGES)(data, dice) if data else data
    return gzip.compress(data) if compressed > 0.95 else data


def read(name, whole):
    """Reads a capture as the commands do: all packets, some again, the connections. Returns how many packets it has;
    None after a Problem."""
    notes, layout, packets = Notes(), Layout(), []
    try:
        with opened(name, "name a capture") as file:
            for packet in packets_of(name, file, notes, layout, whole):
                packets.append(packet)
                bytes((packet.size >= 0, packet.missing >= 0, packet.is_syn, packet.flags))
                str(packet.place)
                bytes(packet.payload)
    except Problem as problem:
        problem = str(problem)
        if "\n  " not in problem or "Error" in problem:
            raise AssertionError(problem) from None
        return None
    if packets and packets[0].offset is not None:
        with open(name, "rb") as file:
            for packet in packets[::7]:
                again = packet_at(name, file, layout, packet.offset, packet.count)
                if (again.segment, again.moment) != (packet.segment, packet.moment):
                    raise AssertionError(f"{packet.place} isn't the same again")
    for connection in connections_of({name: packets}):
        for found in connection.seen.values():
            without_copies(found, notes)
        connection.shown_up_to(connection.client), connection.gap(name)
    return len(packets)


def run(captures, seed, count, name, act=read):
    """Reads this many damaged captures with `act`. Returns how many gave packets, and how many a Problem. An
    AssertionError names the capture that failed."""
    dice, good, bad = random.Random(seed), 0, 0
    for number in range(count):
        data = damaged(dice.choice(captures), dice)
        with open(name, "wb") as file:
            file.write(data)
        try:
            found = act(name, dice.random() < 0.3)
        except Exception as error:
            raise AssertionError(f"seed {seed}, capture {number}: {type(error).__name__}: {error}") from error
        good, bad = (good + 1, bad) if found is not None else (good, bad + 1)
    return good, bad
