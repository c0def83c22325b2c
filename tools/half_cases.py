#!/usr/bin/env python3
"""Writes each half of the whole cases of a folder as a case of version 3, or of version 4, 5 or 6 if the whole case is.

    python3 tools/half_cases.py crates/test_cases/data FOLDER

Each case of the first folder with a yes in its expected.txt is a recording of both hosts. Its half for a host has only
that host's lines, as if the other one had not been recorded, and that host's steps of the witness. Moments stay the
same; lines and made segments are renumbered, and the host becomes host 0. Each half gets a yes, with the counts in the
new expected.txt:

    FOLDER/half-H-of-NAME.case   the half of host H
    FOLDER/expected.txt          a line for each: its name, a tab, and the line that must be printed
    FOLDER/many.txt              all of them, as one input of tcpwit many
    FOLDER/wanted.txt            what tcpwit many must print for it

To check this, run: tcpwit many --workers 4 < FOLDER/many.txt | diff - FOLDER/wanted.txt

A line belongs to the host that it names; a call on a socket number belongs to the host that returned this number. A
call on a number that was never returned is in both halves. A half is left out if its host has no line, or if a case of
version 1 shows a SYN of this host with a shift: version 1 ignores it, version 3 doesn't. In LEFT_OUT, a host drops what
an older connection sent; in a half case, nothing shows that, so the host would have to process it.
"""

import os
import pathlib
import sys

sys.path.insert(0, os.path.join(os.path.dirname(os.path.realpath(__file__)), "..", "importer"))
from tcpwit_importer.capture.segments import SHIFT, SYN, flags, options, values  # noqa: E402

# Cases without halves.
LEFT_OUT = {"dropped-a-segment-of-an-older-connection"}

# How many lines the header of a whole case has, by its first line.
HEADERS = {"trace 1": 6, "trace 2": 7, "trace 4": 9, "trace 5": 10, "trace 6": 12}


def lines_of(text):
    """The lines of a text, without their ends."""
    return [line.removesuffix("\r") for line in text.split("\n")[:-1]]


def split_case(text):
    """The header, the event lines and the steps of a whole case, each line as its fields; None for other cases."""
    lines = lines_of(text)
    if not lines or lines[0] not in HEADERS:
        return None
    first = HEADERS[lines[0]]
    if "hosts 1" in lines[:first]:
        return None
    cut = lines.index(lines[0].replace("trace", "witness"))
    events = [line.split(" ") for line in lines[first:cut]]
    steps = [line.split(" ") for line in lines[cut + 1 :]]
    return lines[:first], events, steps


def half_header(header):
    """The lines of the header of a half case."""
    if header[0] in ("trace 4", "trace 5", "trace 6"):
        return [*header[:7], "hosts 1", *header[8:]]
    initial = header[6] if len(header) > 6 else "initial 5681"
    return ["trace 3", *header[1:6], initial, "half 0"]


def calls_of(events):
    """For each event line that begins or ends a call, the call's fields."""
    open_calls = {}
    calls = {}
    for place, (_, thread, letter, *rest) in enumerate(events):
        if letter == "B":
            open_calls[thread] = rest
        if letter in "BE":
            calls[place] = open_calls[thread]
    return calls


class Case:
    """A whole case, and which host each of its lines and steps belongs to."""

    def __init__(self, header, events, steps):
        self.events = events
        self.steps = steps
        self.first = len(header) + 1
        self.calls = calls_of(events)
        self.sockets = {}
        self.effects = {}
        self.follow_effects()

    def follow_effects(self):
        """Finds the call of each effect, and the hosts of the socket numbers that calls return."""
        open_calls = {}
        for place, (_, label, *rest) in enumerate(self.steps):
            if label == "L":
                line = int(rest[0]) - self.first
                _, thread, letter, *call = self.events[line]
                if letter == "B":
                    open_calls[thread] = call
            if label == "D":
                thread, *answer = rest
                call = open_calls[thread]
                self.effects[place] = call
                if len(answer) == 2 and answer[0] == "ok" and call[0] in ("listen", "open", "accept"):
                    self.sockets[answer[1]] = self.host_of_call(call)

    def host_of_call(self, call):
        """The host of a call; None if its socket number was never returned."""
        if call[0] in ("listen", "open"):
            return call[1]
        return self.sockets.get(call[1])

    def host_of_line(self, place):
        """The host of an event line; None if both halves have it."""
        if place in self.calls:
            return self.host_of_call(self.calls[place])
        return self.events[place][3]

    def host_of_step(self, place):
        """The host of a step; None if both halves have it."""
        _, label, *rest = self.steps[place]
        if label == "L":
            return self.host_of_line(int(rest[0]) - self.first)
        if label == "D":
            return self.host_of_call(self.effects[place])
        return rest[0]

    def kept_lines(self, host):
        """The places of the event lines in a host's half."""
        return [place for place in range(len(self.events)) if self.host_of_line(place) in (host, None)]

    def kept_steps(self, host):
        """The places of the steps in a host's half."""
        return [place for place in range(len(self.steps)) if self.host_of_step(place) in (host, None)]


def tells_shift(segment):
    """Whether a segment is a SYN with a window shift."""
    return bool(flags(segment) & SYN and values(SHIFT, 1, options(segment)))


def shows_shift(case, host):
    """Whether an O line of the host shows a SYN with a shift."""
    sent = (fields for fields in case.events if fields[2:4] == ["O", host])
    return any(tells_shift(bytes.fromhex(fields[4])) for fields in sent)


def half_line(fields):
    """An event line of a half, which names host 0."""
    moment, thread, letter, *rest = fields
    if letter in "OIT":
        rest[0] = "0"
    elif letter == "B" and rest[0] in ("listen", "open"):
        rest[1] = "0"
    return [moment, thread, letter, *rest]


def half_step(case, fields, lines, made):
    """A step of a half, with the new numbers of lines and made segments."""
    moment, label, *rest = fields
    if label == "L":
        letter = case.events[int(rest[0]) - case.first][2]
        rest[0] = lines[rest[0]]
        if letter == "O":
            rest[1] = made[rest[1]]
        if letter == "I":
            del rest[1]
    elif label != "D":
        rest[0] = "0"
        if label in "TKR":
            rest[1] = lines[rest[1]]
    return [moment, label, *rest]


def number_made(case, steps):
    """The new number of each made segment that these steps make."""
    makers = [place for place, fields in enumerate(case.steps) if fields[1] in "MR"]
    kept = set(steps)
    numbers = {}
    for old, place in enumerate(makers, 1):
        if place in kept:
            numbers[str(old)] = str(len(numbers) + 1)
    return numbers


def write_half(case, header, host):
    """The text of a host's half, and the expected line; None if it is left out."""
    places = case.kept_lines(host)
    if not any(case.host_of_line(place) == host for place in places):
        return None
    if header[0] == "trace 1" and shows_shift(case, host):
        return None
    steps = case.kept_steps(host)
    text = half_header(header)
    lines = {str(case.first + old): str(len(text) + new) for new, old in enumerate(places, 1)}
    made = number_made(case, steps)
    witness = text[0].replace("trace", "witness")
    text += [" ".join(half_line(case.events[place])) for place in places]
    text.append(witness)
    text += [" ".join(half_step(case, case.steps[place], lines, made)) for place in steps]
    wanted = f"yes {len(places)} {len(steps) - len(places)}"
    return "".join(line + "\n" for line in text), wanted


def halves_of(name, text):
    """The name, the text and the expected line of each half of a case."""
    parts = split_case(text)
    if parts is None:
        return
    header, events, steps = parts
    case = Case(header, events, steps)
    for host in ("0", "1"):
        half = write_half(case, header, host)
        if half is not None:
            yield (f"half-{host}-of-{name.removeprefix('examples/')}", *half)


def main(data, folder):
    folder.mkdir(parents=True, exist_ok=True)
    halves = []
    for row in (data / "expected.txt").read_text().splitlines():
        name, wanted = row.split("\t")
        if wanted.startswith("yes ") and name not in LEFT_OUT:
            text = (data / f"{name}.case").read_bytes().decode("ascii")
            halves += halves_of(name, text)
    for name, text, _ in halves:
        (folder / f"{name}.case").write_text(text)
    (folder / "expected.txt").write_text("".join(f"{name}\t{wanted}\n" for name, _, wanted in halves))
    (folder / "many.txt").write_text("".join(f"{text}end\n" for _, text, _ in halves))
    (folder / "wanted.txt").write_text("".join(f"{wanted}\n" for _, _, wanted in halves))


if __name__ == "__main__":
    if "--help" in sys.argv:
        print(__doc__.strip())
        sys.exit()
    if len(sys.argv) != 3:
        sys.exit("usage: half_cases.py DATA FOLDER")
    main(pathlib.Path(sys.argv[1]), pathlib.Path(sys.argv[2]))
