"""Converts the calls that send and receive."""
from ..trace.endpoints import LONGEST, Data
from .strace_words import Text, address_of, arguments, gathered, whole_number


class Transfers:
    def __init__(self, trace, descriptors, opening):
        self.trace, self.descriptors, self.opening, self.notes = trace, descriptors, opening, trace.notes

    def send(self, event, socket, words):
        if not (len(words) > 4 and "MSG_FASTOPEN" in words[3]
                and self.opening.fast_open(event, socket, address_of(words[4]))):
            self.sent(event, socket, *buffer(words))

    def writev(self, event, socket, words):
        self.sent(event, socket, *gathered(words[1]))

    def sendmsg(self, event, socket, words):
        if len(words) > 1 and isinstance(words[1], dict):
            if not ("MSG_FASTOPEN" in words[-1]
                    and self.opening.fast_open(event, socket, address_of(words[1].get("msg_name")))):
                self.sent(event, socket, *gathered(words[1].get("msg_iov")))

    def sendmmsg(self, event, socket, words):
        if isinstance(words[1], list):
            known, size = b"", 0
            for message in words[1][:max(event.result or 0, 1)]:
                data, length = gathered(message["msg_hdr"].get("msg_iov"))
                known, size = known + data, size + (whole_number(message.get("msg_len", "")) or length)
            self.sent(event._replace(result=size if (event.result or 0) > 0 else event.result), socket, known, size)

    def sendfile(self, event, socket, words):
        self.sent(event, socket, b"", whole_number(words[3]) if len(words) > 3 else None)

    def splice(self, event):
        """Receives from the first descriptor, or sends to the second."""
        words = arguments(event.text)
        if len(words) < 5:
            return
        source, target = (self.descriptors.find(event, word) for word in (words[0], words[2]))
        if source:
            self.received(event, source, b"", whole_number(words[4]))
        if target:
            self.sent(event, target, b"", whole_number(words[4]))

    def sent(self, event, socket, known, asked):
        """A call that sends `asked` bytes: `known` are those that the log has."""
        endpoint = self.trace.endpoint_of(event, socket)
        if not endpoint or asked == 0:
            return
        if endpoint.role == "listener":
            self.notes.leave_out("sends on listeners", event.place)
        elif event.result is not None and event.result >= 0:
            self.sent_data(event, endpoint, known, asked)
        else:
            data = Data(known[:LONGEST] or b"\0", endpoint, endpoint.sent, max(1, len(known[:LONGEST])), True)
            self.trace.add_failed(event, endpoint, "send", (data,))

    def sent_data(self, event, endpoint, known, asked):
        """Adds sent bytes: in parts if they are more than a line may have or the log lacks some, all but the last at
        the beginning."""
        if asked is not None and asked <= LONGEST and len(known) >= asked and event.result:
            data = Data(known, endpoint, endpoint.sent, asked, True)
            self.trace.add(event, endpoint, "send", (data,), ("ok", event.result))
        else:
            for start, length in self.parts(event):
                data = Data(known[start:start + length], endpoint, endpoint.sent + start, length, True)
                end = event.end if start + length == event.result else event.begin
                self.trace.add(event, endpoint, "send", (data,), ("ok", length), end=end)
        endpoint.sent += event.result

    def recv(self, event, socket, words):
        self.received(event, socket, *buffer(words))

    def readv(self, event, socket, words):
        self.received(event, socket, *gathered(words[1] if len(words) > 1 else []))

    def recvmsg(self, event, socket, words):
        message = words[1] if len(words) > 1 and isinstance(words[1], dict) else {}
        self.received(event, socket, *gathered(message.get("msg_iov")))

    def recvmmsg(self, event, socket, words):
        if isinstance(words[1], list):
            known, size, room = b"", 0, 0
            for place, message in enumerate(words[1]):
                data, length = gathered(message.get("msg_hdr", {}).get("msg_iov"))
                room += length
                if place < (event.result or 0):
                    known, size = known + data, size + (whole_number(message.get("msg_len", "")) or 0)
            self.received(event._replace(result=size if (event.result or 0) > 0 else event.result), socket, known, room)

    def received(self, event, socket, known, room):
        """A call that receives into `room` bytes: `known` are the bytes that the log has."""
        endpoint = self.trace.endpoint_of(event, socket)
        if not endpoint or room == 0:
            return
        room = min(room or LONGEST, LONGEST)
        if endpoint.role == "listener":
            self.notes.leave_out("receives on listeners", event.place)
        elif "MSG_PEEK" in event.text or "MSG_OOB" in event.text:
            self.notes.leave_out("receives with MSG_PEEK or MSG_OOB", event.place)
        elif event.result == 0 and socket.reading_shut:
            self.notes.leave_out("ends of a stream after the program itself shut reading", event.place)
        elif event.result is not None and event.result > 0:
            self.received_data(event, endpoint, known, room)
        elif event.result == 0:
            self.trace.add(event, endpoint, "recv", (room,), (endpoint.fault or "eof",))
        else:
            self.trace.add_failed(event, endpoint, "recv", (room,))

    def received_data(self, event, endpoint, known, room):
        """Adds received bytes: in parts if they are more than a line may have, all but the first at the end."""
        for start, length in self.parts(event):
            data = Data(known[start:start + length], endpoint, endpoint.received + start, length, False)
            begin = event.begin if start == 0 else event.end
            self.trace.add(event, endpoint, "recv", (room,), ("data", data), begin=begin)
        endpoint.received += event.result

    def parts(self, event):
        """The start and length of each part of a call's bytes. If there are several, notes that."""
        if event.result > LONGEST:
            self.notes.change("calls of more than 65,535 bytes, split into parts", event.place)
        return [(start, min(LONGEST, event.result - start)) for start in range(0, event.result, LONGEST)]


def buffer(words):
    """The bytes and the size of a call's only buffer."""
    data = words[1].data if len(words) > 1 and isinstance(words[1], Text) else b""
    return data, whole_number(words[2]) if len(words) > 2 else None
