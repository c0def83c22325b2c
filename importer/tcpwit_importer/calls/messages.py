"""Descriptors that processes pass to each other: in messages (SCM_RIGHTS), or by taking them from another process
(pidfd_getfd)."""
from typing import Any, NamedTuple

from .strace_words import arguments, passed_descriptors, process_of, whole_number

# Ranks of messages that may be the one received: nothing shows which one it is, and it is another one.
GUESSED, OTHER = 2, 3


class Message(NamedTuple):
    """Sockets that were sent and not yet received, each None if it isn't TCP, with what strace printed about them.
    `sender` and `receiver` are the two Unix sockets, None if unknown."""
    sender: Any
    receiver: Any
    files: list
    sockets: list


class Passing:
    def __init__(self, descriptors):
        self.descriptors, self.processes, self.notes = descriptors, descriptors.processes, descriptors.notes
        # Messages that weren't received yet, and the processes of pidfds by table and number.
        self.messages, self.pidfds = [], {}

    def sendmsg(self, event):
        """Passes descriptors on. The message refers to their sockets until it is received."""
        if words := received_or_sent(event):
            sender, receiver = self.descriptors.unix_ends(event)
            sockets = [self.descriptors.find(event, word) for word in words]
            self.messages.append(Message(sender, receiver, files_of(words), sockets))
            for socket in filter(None, sockets):
                socket.references += 1

    def recvmsg(self, event):
        """Receives descriptors."""
        if words := received_or_sent(event):
            receiver, sender = self.descriptors.unix_ends(event)
            message = self.taken(event, sender, receiver, files_of(words))
            for word, socket in zip(words, message.sockets if message else []):
                self.descriptors.put(event, whole_number(word), socket, "CLOEXEC" in event.text)
                if socket:
                    socket.references -= 1

    def taken(self, event, sender, receiver, files):
        """The message that was received, which is removed: the oldest between these Unix sockets, else the oldest with
        such sockets, else, if neither is known, the oldest of all. None if its sending isn't in the log."""
        def rank(message):
            if (sender and message.sender == sender) or (receiver and message.receiver == receiver):
                return 0
            if any(files) and message.files == files:
                return 1
            return OTHER if receiver and message.sender else GUESSED
        found = min(self.messages, key=rank, default=None)
        if not found or rank(found) == OTHER:
            return None
        if rank(found) == GUESSED and len(self.messages) > 1:
            self.notes.change("messages with descriptors, received in the order of sending because strace printed no "
                              "sockets: use strace --decode-fds=socket",
                              event.place)
        # Two messages may be equal.
        self.messages = [message for message in self.messages if message is not found]
        return found

    def pidfd_open(self, event):
        if event.result is not None and event.result >= 0:
            self.pidfds[self.key(event, event.result)] = whole_number(event.text)

    def pidfd_getfd(self, event):
        """Takes a descriptor from another process."""
        if event.result is not None and event.result >= 0:
            pidfd, target = arguments(event.text)[:2]
            process = process_of(getattr(pidfd, "file", "")) or self.pidfds.get(self.key(event, whole_number(pidfd)))
            socket = self.processes.get(process, whole_number(target)) if process else None
            self.descriptors.put(event, event.result, socket or self.descriptors.printed_as(event.file), True)

    def key(self, event, number):
        """A descriptor of a process, whose threads may share it."""
        return id(self.processes.table(event.process)), number


def received_or_sent(event):
    """The descriptors in a message that was sent or received."""
    passes = "SCM_RIGHTS" in event.text and event.result is not None and event.result >= 0
    return passed_descriptors(event.text) if passes else []


def files_of(words):
    """What strace printed about the files of descriptors."""
    return [getattr(word, "file", "") for word in words]
