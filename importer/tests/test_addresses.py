"""Tests the use of what strace prints about sockets: the connection of each call, and sockets that other processes
get."""
import re
import unittest

from tcpwit_importer.calls.claims import CHOSEN, REMEDY
from tcpwit_importer.calls.strace_words import Addresses, addresses_of, first_descriptor, unix_ends
from tcpwit_importer.capture.segments import ACK, FIN, RST

from .conversion import AT, CONNECT, SOCKET, Conversion, both_of
from .wire import ONE, ZERO, Talk, address, packed

STEP = 2 * 10**7
OTHER = ("10.9.0.1", 4001)
# The file of a TCP socket before it has addresses.
NEW, SECOND_NEW = "TCP:[11]", "TCP:[12]"


def tcp(local, remote=None):
    """A TCP socket as strace prints it."""
    return f"TCP:[{local[0]}:{local[1]}{f'->{remote[0]}:{remote[1]}' if remote else ''}]"


def rights(call, numbers):
    """A message that passes descriptors on, received or sent by the call that is given up to its first argument."""
    control = f"{{cmsg_len=20, cmsg_level=SOL_SOCKET, cmsg_type=SCM_RIGHTS, cmsg_data=[{', '.join(numbers)}]}}"
    return f'{call}, {{msg_iov=[{{iov_base="x", iov_len=1}}], msg_iovlen=1, msg_control=[{control}], ' \
        "msg_controllen=24, msg_flags=0}, 0) = 1"


class Words(unittest.TestCase):
    def test_addresses(self):
        here, there = (packed("10.9.0.1"), 4242), (packed("10.9.0.2"), 80)
        for file, found in (("TCP:[10.9.0.1:4242->10.9.0.2:80]", Addresses(here, there)),
                            ("TCP:[10.9.0.1:4242]", Addresses(here, None)),
                            ("TCPv6:[[::ffff:10.9.0.1]:4242->[::ffff:10.9.0.2]:80]", Addresses(here, there)),
                            ("TCPv6:[[fd09::1]:5->[fd09::2]:80]",
                             Addresses((packed("fd09::1"), 5), (packed("fd09::2"), 80))),
                            ("TCPv6:[[::]:80]", Addresses((packed("::"), 80), None)), ("TCP:[1234]", None),
                            ("socket:[1234]", None), ("UDP:[10.9.0.1:53]", None), ("UNIX-STREAM:[5->6]", None),
                            ("TCP:[10.9.0:1]", None), ("/tmp/TCP:[10.9.0.1:1]", None), ("", None)):
            self.assertEqual(addresses_of(file), found, file)

    def test_descriptors(self):
        for text, number, file in (("3<TCP:[1]>, 5", "3", "TCP:[1]"), ("3, 5", "3", ""), ("3", "3", ""),
                                   ("3<a->b>", "3", "a->b")):
            found = first_descriptor(text)
            self.assertEqual((found, found.file), (number, file))
        self.assertIsNone(first_descriptor("AF_INET, SOCK_STREAM, 0"))

    def test_unix_sockets(self):
        for file, found in (("UNIX-STREAM:[5->6]", ("5", "6")), ("UNIX-STREAM:[5->6,@\"a\"]", ("5", "6")),
                            ("UNIX-DGRAM:[5,\"/a\"]", ("5", None)), ("UNIX:[5->6]", ("5", "6")),
                            ("TCP:[5]", (None, None)), ("", (None, None))):
            self.assertEqual(unix_ends(file), found)


class Connecting(Conversion):
    """Two threads connect at once. The thread that begins first gets the port of the second SYN."""

    def concurrent(self, first, second, later=()):
        """The ports that the threads' sockets get; strace prints these texts about them."""
        whole = both_of(Talk(at=AT + 4 * STEP + 10**6), Talk(zero=OTHER, at=AT + 4 * STEP + 2 * 10**6))
        found = self.told([SOCKET + f"<{NEW}>", SOCKET.replace("= 3", f"= 4<{SECOND_NEW}>"),
                           "clone(child_stack=0x7f, flags=CLONE_VM|CLONE_FILES|CLONE_THREAD) = 8",
                           f"connect(3<{NEW}>, {address(ONE)}, 16 <unfinished ...>",
                           (8, f"connect(4<{SECOND_NEW}>, {address(ONE)}, 16 <unfinished ...>"),
                           "<... connect resumed>) = 0", (8, "<... connect resumed>) = 0"),
                           f'write(3{first}, "a", 1) = 1', (8, f'write(4{second}, "b", 1) = 1'), *later], talk=whole)
        opened = [line.split()[3] for line in found if line.startswith("B open")]
        return opened, [line for line in found if "B send" in line]

    def test_addresses_decide(self):
        found = self.concurrent(f"<{tcp(OTHER, ONE)}>", f"<{tcp(ZERO, ONE)}>")
        self.assertEqual(found, (["4001", "4000"], ["B send 1 61", "B send 2 62"]))
        self.assertEqual(list(self.notes.lines()), [])

    def test_an_address_that_only_the_close_shows(self):
        found = self.concurrent("", "", [f"close(3<{tcp(OTHER, ONE)}>) = 0", (8, f"close(4<{tcp(ZERO, ONE)}>) = 0")])
        self.assertEqual(found[0], ["4001", "4000"])

    def test_a_descriptor_that_was_copied_shows_the_address(self):
        found = self.concurrent("", "",
                                [f"dup(3<{tcp(OTHER, ONE)}>) = 5<{tcp(OTHER, ONE)}>", "close(3) = 0", "close(5) = 0"])
        self.assertEqual(found[0], ["4001", "4000"])

    def test_a_call_without_addresses_gets_a_connection_that_no_address_names(self):
        self.assertEqual(self.concurrent("", f"<{tcp(ZERO, ONE)}>")[0], ["4001", "4000"])
        self.assertEqual(self.notes.changed, {})
        self.assertEqual(self.concurrent(f"<{tcp(OTHER, ONE)}>", "")[0], ["4001", "4000"])

    def test_a_guess_is_noted(self):
        for first, second in (("", ""), ("<TCP:[11]>", "<TCP:[12]>"), ("<socket:[11]>", "<socket:[12]>")):
            self.assertEqual(self.concurrent(first, second)[0], ["4000", "4001"])
            self.assertEqual(self.notes.changed[CHOSEN + REMEDY][0], 1)

    def refused(self, at, lines):
        """The ports of two sockets whose SYNs, at these steps, are reset. A socket from before the log shows that the
        log has addresses."""
        both = []
        for port, step in zip((4000, 4001), at):
            talk = Talk(zero=("10.9.0.1", port), at=AT + step * STEP + 10**6 * (port - 3999))
            talk.frames = {host: frames[:1] for host, frames in talk.frames.items()}
            talk.send(1, ACK | RST)
            both.append(talk)
        other = tcp(("10.9.0.1", 4009), ONE)
        found = self.told([SOCKET, SOCKET.replace("= 3", "= 4"), *lines, f'write(9<{other}>, "a", 1) = 1'],
                          talk=both_of(*both))
        return [line.split()[3] for line in found if line.startswith("B open")]

    def test_connects_that_fail_have_no_addresses(self):
        connects = [f"connect({number}, {address(ONE)}, 16) = -1 ECONNREFUSED (x)" for number in (3, 4)]
        self.assertEqual(self.refused((2, 3), connects), ["4000", "4001"])
        self.assertEqual(self.notes.changed, {})

    def test_connects_that_fail_at_once_are_noted(self):
        begun = [f"connect({number}, {address(ONE)}, 16 <unfinished ...>" for number in (3, 4)]
        ended = "<... connect resumed>) = -1 ECONNREFUSED (x)"
        self.assertEqual(self.refused((4, 4),
                                      ["clone(child_stack=0x7f, flags=CLONE_FILES) = 8", begun[0], (8, begun[1]), ended,
                                       (8, ended)]), ["4000", "4001"])
        self.assertEqual(self.notes.changed[CHOSEN][0], 1)

    def test_an_address_that_no_capture_shows(self):
        elsewhere = tcp(("10.9.0.1", 4002), ONE)
        self.assertEqual(self.concurrent(f"<{elsewhere}>", f"<{tcp(ZERO, ONE)}>"), (["4000"], ["B send 1 62"]))

    def test_options_that_print_more(self):
        path = r"5<\x2f\x65>"
        found = self.concurrent(f"<{tcp(OTHER, ONE)}>", f"<{tcp(ZERO, ONE)}>",
                                [f'read({path}, "ab", 2) = 2',
                                 f"splice({path}, NULL, 3<{tcp(OTHER, ONE)}>, NULL, 0, 0) = 0"])
        self.assertEqual(found[0], ["4001", "4000"])

    def test_a_connection_that_a_socket_from_before_the_log_has(self):
        self.assertEqual(self.concurrent("", "", [f'write(9<{tcp(ZERO, ONE)}>, "a", 1) = 1'])[0], ["4001"])

    def test_a_bound_socket_keeps_the_text_that_strace_printed_first(self):
        whole = both_of(Talk(at=AT + STEP), Talk(zero=OTHER, at=AT + STEP + 10**6))
        opening = [SOCKET, f"bind(3<{NEW}>, {address(OTHER)}, 16) = 0",
                   f"connect(3<{tcp(OTHER)}>, {address(ONE)}, 16) = 0", f'write(3<{tcp(OTHER)}>, "a", 1) = 1']
        whole.frames = {host: [(moment + STEP, frame) for moment, frame in frames]
                        for host, frames in whole.frames.items()}
        self.assertEqual(self.told(opening, talk=whole)[0], "B open 0 4001 80")
        opening[2:] = [opening[2].replace("= 0", "= -1 EINPROGRESS (x)"),
                       f"getsockopt(3<{tcp(OTHER)}>, SOL_SOCKET, SO_ERROR, [0], [4]) = 0",
                       f'write(9<{tcp(("10.9.0.1", 4002), ONE)}>, "a", 1) = 1']
        self.assertEqual(self.told(opening, talk=whole), ["B open 0 4001 80", "E ok 1", "B await 1", "E ok"])
        any_address = [opening[0], opening[1].replace(OTHER[0], "0.0.0.0"),
                       *(line.replace(tcp(OTHER), tcp(("0.0.0.0", 4001))) for line in opening[2:])]
        self.assertEqual(self.told(any_address, talk=whole)[0], "B open 0 4001 80")

    def test_a_socket_that_connects_again_has_the_old_addresses(self):
        refused = Talk(at=AT + STEP)
        refused.frames = {host: frames[:1] for host, frames in refused.frames.items()}
        refused.at = AT + STEP + 2 * 10**6
        refused.send(1, ACK | RST)
        whole = both_of(refused, Talk(zero=OTHER, at=AT + 3 * STEP))
        self.assertEqual(self.told([SOCKET, f"connect(3<{NEW}>, {address(ONE)}, 16) = -1 ECONNREFUSED (x)",
                                    f"getsockname(3<{tcp(ZERO, ONE)}>, 0x7f, [16]) = -1 EINVAL (x)",
                                    f"connect(3<{tcp(ZERO, ONE)}>, {address(ONE)}, 16) = 0",
                                    f'write(3<{tcp(ZERO, ONE)}>, "a", 1) = 1'], talk=whole),
                         ["B open 0 4000 80", "E ok 1", "B await 1", "E refused", "B open 0 4001 80", "E ok 2",
                          "B await 2", "E ok", "B send 2 61", "E ok 1"])


class Accepting(Conversion):
    def accepted(self, *accepts):
        """The calls of a server that accepts two connections, from 4000 and then from 4001."""
        whole = both_of(Talk(at=AT + STEP), Talk(zero=OTHER, at=AT + STEP + 10**6))
        found = self.told([SOCKET, f"bind(3<{NEW}>, {address(ONE)}, 16) = 0", f"listen(3<{tcp(ONE)}>, 5) = 0",
                           *accepts], host=1, talk=whole)
        return found[2:]

    def test_the_returned_socket_shows_the_connection(self):
        accepts = [f"accept(3<{tcp(ONE)}>, NULL, NULL) = {number}<{tcp(ONE, end)}>"
                   for number, end in ((4, OTHER), (5, ZERO))]
        reads = ['sendfile(4, 9, NULL, 1) = 1']
        self.accepted(*accepts)
        self.assertEqual(list(self.notes.lines()), [])
        whole = [Talk(at=AT + STEP), Talk(zero=OTHER, at=AT + STEP + 10**6)]
        for talk, text in zip(whole, (b"a", b"b")):
            talk.at = AT + 10 * STEP
            talk.send(1, ACK, text)
        found = self.told([SOCKET, f"bind(3<{NEW}>, {address(ONE)}, 16) = 0", f"listen(3<{tcp(ONE)}>, 5) = 0", *accepts,
                           *reads], host=1, talk=both_of(*whole))
        self.assertEqual([line for line in found if "send" in line], ["B send 2 62"])

    def test_an_accept_without_addresses_gets_a_connection_that_no_address_names(self):
        accepts = ["accept(3, NULL, NULL) = 4", f"accept(3<{tcp(ONE)}>, NULL, NULL) = 5<{tcp(ONE, ZERO)}>"]
        self.assertEqual(self.accepted(*accepts), ["B accept 1", "E ok 2", "B accept 1", "E ok 3"])
        self.assertEqual(self.notes.changed, {})

    def test_a_guess_is_noted(self):
        self.assertEqual(self.accepted("accept(3, NULL, NULL) = 4", "accept(3, NULL, NULL) = 5"),
                         ["B accept 1", "E ok 2", "B accept 1", "E ok 3"])
        self.assertEqual(self.notes.changed[CHOSEN + REMEDY][0], 1)

    def test_a_listener_whose_port_the_kernel_chose(self):
        self.assertEqual(self.told([SOCKET, f"listen(3<{NEW}>, 5) = 0",
                                    f"accept(3<{tcp(('0.0.0.0', 80))}>, {address(ZERO)}, [16]) = 4<{tcp(ONE, ZERO)}>"],
                                   host=1), ["B listen 1 80 5", "E ok 1", "B accept 1", "E ok 2"])


class Passing(Conversion):
    """A server that accepts two connections, passes each to a process of its own, and closes its descriptors."""

    ACCEPTS = [SOCKET, f"bind(3<{NEW}>, {address(ONE)}, 16) = 0", f"listen(3<{tcp(ONE)}>, 5) = 0", "fork() = 8",
               "fork() = 9", f"accept(3<{tcp(ONE)}>, {address(ZERO)}, [16]) = 4<{tcp(ONE, ZERO)}>",
               f"accept(3<{tcp(ONE)}>, {address(OTHER)}, [16]) = 5<{tcp(ONE, OTHER)}>"]

    def sent(self, *lines):
        """The calls that send and close on the two accepted connections, which are numbers 2 and 3."""
        whole = both_of(Talk(at=AT + 4 * STEP), Talk(zero=OTHER, at=AT + 4 * STEP + 10**6))
        return [line for line in self.told([*self.ACCEPTS, *lines], host=1, talk=whole)
                if line[:6] in ("B send", "B clos")]

    def test_the_process_that_receives_first_was_sent_the_second(self):
        for names in (True, False):
            first, second = (f"<{tcp(ONE, end)}>" if names else "" for end in (ZERO, OTHER))
            one, two = (("6", "7") if names else ("6<UNIX-STREAM:[21->22]>", "7<UNIX-STREAM:[31->32]>"))
            found = self.sent(rights(f"sendmsg({one}", [f"4{first}"]), rights(f"sendmsg({two}", [f"5{second}"]),
                              "close(4) = 0", "close(5) = 0",
                              (9, rights("recvmsg(7" if names else "recvmsg(7<UNIX-STREAM:[32->31]>", [f"12{second}"])),
                              (8, rights("recvmsg(6" if names else "recvmsg(6<UNIX-STREAM:[22->21]>", [f"11{first}"])),
                              (9, 'write(12, "b", 1) = 1'), (9, "close(12) = 0"), (8, 'write(11, "a", 1) = 1'),
                              (8, "close(11) = 0"))
            self.assertEqual(found, ["B send 3 62", "B close 3", "B send 2 61", "B close 2"])

    def test_the_sockets_of_socketpairs_are_known_without_addresses(self):
        pairs = ["socketpair(AF_UNIX, SOCK_STREAM|SOCK_CLOEXEC, 0, [6, 7]) = 0",
                 "socketpair(AF_UNIX, SOCK_STREAM, 0, [8, 9]) = 0"]
        accepts = [re.sub("<(->|[^<>])*>", "", line) for line in self.ACCEPTS]
        whole = both_of(Talk(at=AT + 4 * STEP), Talk(zero=OTHER, at=AT + 4 * STEP + 10**6))
        found = self.told([SOCKET, *pairs, *accepts[1:], rights("sendmsg(6", ["4"]), rights("sendmsg(8", ["5"]),
                           "close(4) = 0", "close(5) = 0", (9, "dup2(9, 20) = 20"), (9, rights("recvmsg(20", ["12"])),
                           (8, rights("recvmsg(7", ["11"])), (8, 'write(11, "a", 1) = 1'), (9, 'write(12, "b", 1) = 1'),
                           (8, 'execve("a", ["a"], 0x7f) = 0'), (8, "+++ exited with 0 +++")], host=1, talk=whole)
        self.assertEqual(found[6:], ["B send 2 61", "E ok 1", "B send 3 62", "E ok 1", "B close 2", "E ok"])
        self.assertEqual(list(self.notes.lines()), [])

    def test_a_guess_is_noted(self):
        lines = [rights("sendmsg(6", ["4"]), rights("sendmsg(7", ["5"]), "close(4) = 0",
                 (8, rights("recvmsg(6", ["11"])), (8, 'write(11, "a", 1) = 1')]
        self.assertEqual(self.sent(*lines), ["B send 2 61"])
        self.assertEqual(len([line for line in self.notes.lines()
                              if "1 messages with descriptors, received in the order of sending" in line]), 1)
        self.sent(*lines[:1], *lines[2:])
        self.assertEqual(list(self.notes.lines()), [])

    def test_messages_of_one_queue_keep_their_order(self):
        ends = "<UNIX-STREAM:[21->22]>", "<UNIX-STREAM:[22->21]>"
        found = self.sent(rights(f"sendmsg(6{ends[0]}", ["4"]), rights(f"sendmsg(6{ends[0]}", ["5"]), "close(4) = 0",
                          "close(5) = 0", (8, rights(f"recvmsg(6{ends[1]}", ["11"])),
                          (8, rights(f"recvmsg(6{ends[1]}", ["12"])), (8, 'write(11, "a", 1) = 1'),
                          (8, 'write(12, "b", 1) = 1'))
        self.assertEqual(found, ["B send 2 61", "B send 3 62"])

    def test_a_message_whose_sending_is_not_in_the_log(self):
        found = self.sent(rights("sendmsg(6<UNIX-STREAM:[21->22]>", [f"4<{tcp(ONE, ZERO)}>"]),
                          (8, rights("recvmsg(6<UNIX-STREAM:[42->41]>", ["11"])),
                          (8, rights("recvmsg(6<UNIX-STREAM:[22->21]>", [f"12<{tcp(ONE, ZERO)}>"])), "close(4) = 0",
                          (8, 'write(12, "a", 1) = 1'), (8, "close(12) = 0"))
        self.assertEqual(found, ["B send 2 61", "B close 2"])

    def test_a_descriptor_that_is_taken_from_a_process(self):
        for opened, taken in (("pidfd_open(7, 0) = 10", "pidfd_getfd(10, 5, 0) = 12"),
                              ("fork() = 8", "pidfd_getfd(10<pid:7>, 5, 0) = 12"),
                              ("fork() = 8", f"pidfd_getfd(10, 5<{tcp(ONE, OTHER)}>, 0) = 12<{tcp(ONE, OTHER)}>")):
            with self.subTest(taken):
                found = self.sent((9, opened), (9, taken), "close(5) = 0", (9, 'write(12, "b", 1) = 1'),
                                  (9, 'execve("a", ["a"], 0x7f) = 0'))
                self.assertEqual(found, ["B send 3 62", "B close 3"])

    def test_a_descriptor_that_no_call_of_the_log_gave(self):
        for call in ('write({}, "b", 1) = 1', "splice(9, NULL, {}, NULL, 1, 0) = 1"):
            whole = [Talk(at=AT + 4 * STEP), Talk(zero=OTHER, at=AT + 4 * STEP + 10**6)]
            whole[1].send(1, ACK, b"b")
            lines = [(20, call.format(f"4<{tcp(ONE, OTHER)}>")), "close(5) = 0", (20, "close(4) = 0")]
            found = self.told([*self.ACCEPTS, *lines], host=1, talk=both_of(*whole))
            self.assertEqual(found[-4:], ["B send 3 62", "E ok 1", "B close 3", "E ok"])


class Calls(Conversion):
    def test_close_on_exec(self):
        opened = [SOCKET.replace("SOCK_STREAM", "SOCK_STREAM|SOCK_CLOEXEC"), CONNECT]
        for lines, closes in ((["ioctl(3, FIONCLEX) = 0"], False),
                              (["ioctl(3, FIONCLEX) = 0", f"ioctl(3<{tcp(ZERO, ONE)}>, FIOCLEX) = 0"], True),
                              (["ioctl(3, FIONBIO, [1]) = 0"], True), (["ioctl(3, FIONCLEX) = -1 EBADF (x)"], True)):
            with self.subTest(lines):
                found = self.told([*opened, *lines, 'execve("a", ["a"], 0x7f) = 0', 'write(3, "a", 1) = 1'])[4:]
                self.assertEqual(found, ["B close 1", "E ok"] if closes else ["B send 1 61", "E ok 1"])

    def test_a_send_that_connects_first(self):
        fast = f'sendto(3, "ab", 2, MSG_FASTOPEN, {address(ONE)}, 16)'
        message = f'sendmsg(3, {{msg_name={address(ONE)}, msg_namelen=16, msg_iov=[{{iov_base="ab", iov_len=2}}], ' \
            "msg_iovlen=1, msg_flags=0}, MSG_FASTOPEN|MSG_NOSIGNAL)"
        opened, sent = ["B open 0 4000 80", "E ok 1"], ["B send 1 6162", "E ok 2"]
        for call in (fast, message):
            for lines, found in ((["= 2"], opened + sent), (["= -1 EINPROGRESS (x)"], opened),
                                 (["= -1 EOPNOTSUPP (x)"], []),
                                 (["= -1 ECONNREFUSED (x)"], [*opened, "B await 1", "E refused"])):
                with self.subTest(call + lines[0]):
                    self.assertEqual(self.told([SOCKET, f"{call} {lines[0]}"]), found)
        self.told([SOCKET, f"{fast} = -1 EINPROGRESS (x)"])
        self.assertEqual(list(self.notes.lines()), [])
        self.assertEqual(self.told([SOCKET, f"{fast} = -1 EINPROGRESS (x)", f"{fast} = -1 EALREADY (x)"]), opened)
        self.assertEqual(list(self.notes.left_out), ["sendto answered by EALREADY"])
        later = ["getsockopt(3, SOL_SOCKET, SO_ERROR, [0], [4]) = 0", 'sendto(3, "ab", 2, MSG_NOSIGNAL, NULL, 0) = 2',
                 f"{fast} = -1 EISCONN (x)"]
        self.assertEqual(self.told([SOCKET, f"{fast} = -1 EINPROGRESS (x)", *later]),
                         [*opened, "B await 1", "E ok", *sent])

    def test_a_process_that_is_killed_after_a_call(self):
        for flags in (FIN | ACK, RST | ACK, RST):
            talk = Talk(at=AT + STEP)
            talk.at = AT + 2 * STEP + 5 * 10**6
            talk.send(0, flags)
            self.client('read(3, "a", 1) = 1', "+++ killed by SIGKILL +++", talk=talk)
            self.assertEqual([text[:6] for text in self.texts[-6:]],
                             ["B recv", "E data", "B clos", "O 0 0f", "I 1 0f", "E ok"])

    def test_a_server_that_is_killed_after_an_accept(self):
        listening = [SOCKET, f"bind(3, {address(ONE)}, 16) = 0", "listen(3, 5) = 0"]
        end = [f"accept(3, {address(ZERO)}, [16]) = 4", "+++ killed by SIGKILL +++"]
        segments = ["O 1 00", "I 0 00"]
        # In the second case, another process still has the listener.
        for lines, found in (([*listening, *end], ["B acce", "E ok 2", "B clos", "B clos", *segments, "E ok", "E ok"]),
                             ([*listening, "fork() = 8", *end], ["B acce", "E ok 2", "B clos", *segments, "E ok"])):
            talk = Talk(at=AT + STEP)
            talk.at = AT + (len(lines) - 2) * STEP + 5 * 10**6
            talk.send(1, FIN | ACK)
            self.told(lines, host=1, talk=talk)
            self.assertEqual([text[:6] for text in self.texts[-len(found):]], found)

    def test_a_listener_that_other_processes_share_is_not_closed(self):
        first = ["socket(AF_INET, SOCK_STREAM, IPPROTO_TCP) = 3", f"bind(3, {address(ONE)}, 16) = 0",
                 "listen(3, 5) = 0"]
        second = [(8, line) for line in first]
        talk = Talk(at=AT + 5 * STEP)
        talk.at = AT + 7 * STEP + 5 * 10**6
        talk.send(1, RST)
        self.told([*first, *second, (8, f"accept(3, {address(ZERO)}, [16]) = 4"), (8, 'read(4, "a", 1) = 1'),
                   "accept(3, NULL, NULL) = -1 EAGAIN (x)", (8, "+++ killed by SIGKILL +++")], host=1, talk=talk)
        self.assertEqual([text[:6] for text in self.texts[-8:]],
                         ["B recv", "E data", "B clos", "O 1 00", "I 0 00", "B acce", "E agai", "E ok"])

    def test_a_process_that_is_killed_after_a_shutdown(self):
        talk = Talk(at=AT + STEP)
        talk.at = AT + 3 * STEP + 2 * 10**6
        talk.send(0, FIN | ACK)
        talk.at = AT + 3 * STEP + 5 * 10**6
        talk.send(0, RST)
        self.client("shutdown(3, SHUT_WR) = 0", 'read(3, "a", 1) = 1', "+++ killed by SIGKILL +++", talk=talk)
        self.assertEqual([text[:6] for text in self.texts[-8:]],
                         ["B recv", "O 0 0f", "I 1 0f", "E data", "B clos", "O 0 0f", "I 1 0f", "E ok"])

    def test_a_reset_with_which_the_kernel_gives_up_is_not_the_end_of_the_process(self):
        talk = Talk(at=AT + STEP)
        talk.at = AT + 2 * STEP + 5 * 10**6
        talk.send(0, RST)
        self.client("read(3, 0x7f, 9) = -1 ETIMEDOUT (x)", "+++ killed by SIGKILL +++", talk=talk)
        self.assertEqual([text[:6] for text in self.texts[-6:]],
                         ["B recv", "O 0 0f", "I 1 0f", "E time", "B clos", "E ok"])

    def test_a_reset_before_the_last_call_is_not_the_end_of_the_process(self):
        talk = Talk(at=AT + STEP)
        talk.at = AT + 3 * STEP + 5 * 10**6
        talk.send(0, RST)
        self.client("fork() = 8", 'read(3, "", 1) = 0', (8, 'write(3, "a", 1) = 1'), (8, "+++ exited with 0 +++"),
                    "+++ killed by SIGKILL +++", talk=talk)
        self.assertEqual([text[:6] for text in self.texts[-8:]],
                         ["B recv", "O 0 0f", "I 1 0f", "E eof", "B send", "E ok 1", "B clos", "E ok"])


if __name__ == "__main__":
    unittest.main()
