"""Parses the arguments of a system call as strace prints them.

Strings become `Text`, structures dicts, arrays lists, `name(..)` a `Call`, and descriptors with a file `Descriptor`;
anything else stays text. With --decode-fds or -yy, strace prints what the kernel knows about a descriptor's file: the
addresses of a TCP socket, or its number if it has none; the numbers of a Unix socket and of its peer; the process of a
pidfd.
"""
import ast
import functools
import re
from ipaddress import ip_address
from typing import NamedTuple

DESCRIPTOR = re.compile(r"(-?\d+|AT_FDCWD)<((?:->|[^<>])*)>(?:\(deleted\))?")
WORD = re.compile(r"[^,\[\](){}\"=]+")
KEY = re.compile(r"(\w+)=(?!=)")
FIRST = re.compile(r"(-?\d+)(?:<((?:->|[^<>])*)>)?")
NUMBER = re.compile(r"-?(0x[0-9a-f]+|\d+)")
TCP = re.compile(r"TCP(?:v6)?:\[(\[\S+?\]|[\d.]+):(\d+)(?:->(\[\S+?\]|[\d.]+):(\d+))?\]")
UNIX = re.compile(r"UNIX(?:-\w+)?:\[(\d+)(?:->(\d+))?")
PIDFD = re.compile(r"pid:(\d+)")


class Text(NamedTuple):
    """The bytes of a string, and whether strace truncated it."""
    data: bytes
    cut: bool


class Descriptor(str):
    """A descriptor's number, and what strace printed about its file."""

    def __new__(cls, number, file=""):
        found = super().__new__(cls, number)
        found.file = file
        return found


class Addresses(NamedTuple):
    """The local address and port of a TCP socket, and those of its peer; None for a peer if it isn't connected."""
    local: tuple
    remote: tuple | None


class Call(NamedTuple):
    """A word with arguments, such as htons(80)."""
    name: str
    words: list


def arguments(text):
    """The arguments of a call, without the parentheses around them."""
    return _Reader(text).items("")


def text_of(body):
    """The bytes of a string's body, which has hex escapes only or C escapes."""
    count = len(body) // 4
    if body and body[::4] + body[1::4] == "\\" * count + "x" * count:
        try:
            # A log has all bytes of a transfer; `replace` takes six times as long.
            return bytes.fromhex(body.encode().translate(None, b"\\x").decode())
        except ValueError:
            pass
    try:
        return ast.literal_eval(f'b"{body}"')
    except (SyntaxError, ValueError):
        return body.encode("latin-1", "replace")


class _Reader:
    def __init__(self, text):
        self.text, self.at = text, 0

    def items(self, close):
        """Items up to the closing bracket, which is skipped, or to the end."""
        found = []
        while self.at < len(self.text):
            letter = self.text[self.at]
            if letter in " ,":
                self.at += 1
            elif letter in ")]}":
                self.at += 1
                if letter == close:
                    break
            else:
                found.append(self.item())
        return found

    def item(self):
        """One item, possibly named; anything after it up to the next comma is skipped."""
        key = KEY.match(self.text, self.at)
        if key:
            self.at = key.end()
            return key[1], self.value()
        return self.value()

    def value(self):
        """One value."""
        found = self.plain_value()
        while self.at < len(self.text) and self.text[self.at] not in ",)]}":
            # Text that strace adds to a value, such as [16 => 28] or NULL /* .. */.
            before = self.at
            self.plain_value()
            self.at += self.at == before
        return found

    def plain_value(self):
        letter = self.text[self.at:self.at + 1]
        if letter == '"':
            return self.string()
        if letter and letter in "{[(":
            self.at += 1
            inner = self.items({"{": "}", "[": "]", "(": ")"}[letter])
            if letter != "{":
                return inner
            pairs = (item for item in inner if isinstance(item, tuple) and len(item) == 2)
            return dict(item for item in pairs if isinstance(item[0], str))
        if descriptor := DESCRIPTOR.match(self.text, self.at):
            self.at = descriptor.end()
            return Descriptor(*descriptor.groups())
        word = WORD.match(self.text, self.at)
        if not word:
            return ""
        self.at = word.end()
        if self.text[self.at:self.at + 1] == "(":
            self.at += 1
            return Call(word[0].strip(), self.items(")"))
        return word[0].partition("/*")[0].strip()

    def string(self):
        """A string up to its closing quote, the first one after an even number of backslashes."""
        end = self.at
        while True:
            end = self.text.find('"', end + 1)
            if end < 0:
                end = len(self.text)
                break
            before = self.text[self.at + 1:end] if self.text[end - 1] == "\\" else ""
            if (len(before) - len(before.rstrip("\\"))) % 2 == 0:
                break
        body = self.text[self.at + 1:end]
        cut = self.text.startswith("...", end + 1)
        self.at = end + 1 + 3 * cut
        return Text(text_of(body), cut)


def whole_number(value):
    """The number at the beginning of a word; None if it has none."""
    found = NUMBER.match(value) if isinstance(value, str) else None
    return int(found[0], 0) if found else None


def address_of(value):
    """Address and port of a socket address, with mapped addresses as IPv4; None for other families."""
    if not isinstance(value, dict):
        return None
    port = next((value[key] for key in ("sin_port", "sin6_port") if key in value), None)
    text = None
    if "sin_addr" in value:
        text = value["sin_addr"].words[0]
    elif "inet_pton" in value:
        text = value["inet_pton"][1]
    if not isinstance(text, Text) or not isinstance(port, Call):
        return None
    return _end(text.data.decode("ascii", "replace"), port.words[0])


def _end(text, port):
    """Address and port, with mapped addresses as IPv4."""
    address = ip_address(text)
    mapped = getattr(address, "ipv4_mapped", None)
    return (mapped or address).packed, int(port)


def first_descriptor(text):
    """The descriptor with which a call's arguments begin; None if they begin with something else."""
    found = FIRST.match(text)
    return Descriptor(found[1], found[2] or "") if found else None


@functools.lru_cache(1 << 16)
def addresses_of(file):
    """The addresses of a TCP socket; None for other files, and for a socket without addresses."""
    found = TCP.fullmatch(file)
    try:
        return found and Addresses(*(_end(found[place].strip("[]"), found[place + 1]) if found[place] else None
                                     for place in (1, 3)))
    except ValueError:
        return None


def unix_ends(file):
    """The kernel's numbers of a Unix socket and of its peer; None for one that strace didn't print."""
    found = UNIX.match(file)
    return found.groups() if found else (None, None)


def process_of(file):
    """The process of a pidfd; None if strace didn't print it."""
    found = PIDFD.fullmatch(file)
    return int(found[1]) if found else None


def gathered(buffers):
    """The bytes of all buffers that a call names, and how many bytes fit into them."""
    known, room = b"", 0
    for buffer in buffers if isinstance(buffers, list) else []:
        if isinstance(buffer, dict):
            base = buffer.get("iov_base")
            # Bytes after a truncated string have another place in the stream.
            if isinstance(base, Text) and len(known) == room:
                known += base.data
            room += whole_number(buffer.get("iov_len", "")) or 0
    return known, room


def passed_descriptors(text):
    """The descriptors that the message of a call passes on."""
    message = arguments(text)[1]
    controls = message.get("msg_control") if isinstance(message, dict) else None
    return [word for control in controls or [] if isinstance(control, dict)
            and control.get("cmsg_type") == "SCM_RIGHTS" for word in control.get("cmsg_data", [])]
