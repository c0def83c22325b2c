"""Tests how system calls become the calls of a trace."""
import unittest

from tcpwit_importer.capture.segments import RST
from tcpwit_importer.problem import Problem

from .conversion import AT, CONNECT, SOCKET, Conversion, both_of
from .wire import ONE, ZERO, Talk, address

# A message that passes a descriptor on.
PASSING = ('sendmsg(6, {msg_iov=[{iov_base="x", iov_len=1}], msg_iovlen=1, msg_control=[{cmsg_len=20, '
           "cmsg_level=SOL_SOCKET, cmsg_type=SCM_RIGHTS, cmsg_data=[3]}], msg_controllen=24, msg_flags=0}, 0)")


class Calls(Conversion):
    def test_sends(self):
        for call in ('write(3, "\\x61\\x62", 2)', 'sendto(3, "ab", 2, MSG_NOSIGNAL, NULL, 0)',
                     'writev(3, [{iov_base="a", iov_len=1}, {iov_base="b", iov_len=1}], 2)',
                     'sendmsg(3, {msg_name=NULL, msg_namelen=0, msg_iov=[{iov_base="ab", iov_len=2}], msg_iovlen=1, '
                     'msg_controllen=0, msg_flags=0}, 0)',
                     'sendmmsg(3, [{msg_hdr={msg_iov=[{iov_base="ab", iov_len=2}], msg_iovlen=1}, msg_len=2}], 1, 0)'):
            with self.subTest(call=call):
                result = 1 if call.startswith("sendmmsg") else 2
                self.assertEqual(self.client(f"{call} = {result}"), ["B send 1 6162", "E ok 2"])
        self.assertEqual(self.client('write(3, "abc", 3) = 2'), ["B send 1 616263", "E ok 2"])
        self.assertEqual(self.client('write(3, "abc", 3) = -1 EAGAIN (Resource temporarily unavailable)'),
                         ["B send 1 616263", "E again"])
        self.assertEqual(self.client('write(3, "", 0) = 0'), [])

    def test_receives(self):
        for call in ('read(3, "ab", 9) = 2', 'recvfrom(3, "ab", 9, 0, NULL, NULL) = 2',
                     'readv(3, [{iov_base="a", iov_len=1}, {iov_base="b", iov_len=8}], 2) = 2',
                     'recvmsg(3, {msg_name=NULL, msg_namelen=0, msg_iov=[{iov_base="ab", iov_len=9}], msg_iovlen=1, '
                     'msg_flags=0}, 0) = 2',
                     'recvmmsg(3, [{msg_hdr={msg_iov=[{iov_base="ab", iov_len=9}], msg_iovlen=1}, msg_len=2}], 1, 0, '
                     'NULL) = 1'):
            with self.subTest(call=call):
                self.assertEqual(self.client(call), ["B recv 1 9", "E data 6162"])
        self.assertEqual(self.client('read(3, "", 9) = 0'), ["B recv 1 9", "E eof"])
        self.assertEqual(self.client("read(3, 0x7f, 9) = -1 EAGAIN (x)"), ["B recv 1 9", "E again"])
        self.assertEqual(self.client('recvfrom(3, "a", 9, MSG_PEEK, NULL, NULL) = 1'), [])

    def test_bytes_that_the_log_lacks_come_from_the_capture(self):
        talk = Talk(at=AT + 2 * 10**7)
        talk.send(0, payload=b"hello")
        talk.send(1, payload=b"world!")
        self.assertEqual(self.client("sendfile(3, 5, [0] => [2], 2) = 2", "splice(6, NULL, 3, NULL, 3, 0) = 3",
                                     "splice(3, NULL, 6, NULL, 6, 0) = 4", 'read(3, "!!"..., 9) = 2', talk=talk)[:8],
                         ["B send 1 6865", "E ok 2", "B send 1 6c6c6f", "E ok 3", "B recv 1 6", "E data 776f726c",
                          "B recv 1 9", "E data 2121"])
        self.assertTrue(any("completed from the capture" in line for line in self.notes.lines()))
        with self.assertRaises(Problem):
            self.client("sendfile(3, 5, NULL, 9) = 9", talk=talk)

    def test_bytes_that_a_reset_left_unsent_are_zeros(self):
        talk = Talk(at=AT + 2 * 10**7)
        talk.send(0, payload=b"hello")
        with self.assertRaisesRegex(Problem,
                                    "(?s)byte 6 of 10.9.0.1:4000 is neither in the log nor in the capture.*until the "
                                    "connection has ended"):
            self.client("sendfile(3, 5, NULL, 7) = 7", talk=talk)
        talk.send(1, flags=RST)
        self.assertEqual(self.client("sendfile(3, 5, NULL, 7) = 7", "splice(6, NULL, 3, NULL, 2, 0) = 2", talk=talk),
                         ["B send 1 68656c6c6f0000", "E ok 7", "B send 1 0000", "E ok 2"])
        self.assertIn("changed: 2 calls with bytes that a reset left unsent according to the captures, written as "
                      "zeros (first: byte 6 of 10.9.0.1:4000)",
                      self.notes.lines())
        # Received bytes arrived in a segment; if no segment has them, the capture lost it.
        with self.assertRaisesRegex(Problem, "byte 1 of 10.9.0.2:80 is neither"):
            self.client("splice(3, NULL, 6, NULL, 6, 0) = 4", talk=talk)

    def test_zeros_of_bytes_that_the_capture_lost_are_told_apart(self):
        lost = "sent but lost by the capture, written as zeros (first: byte 3 of"
        left = "left unsent according to the captures, written as zeros (first: byte {} of"
        for later, answered, told in ((b"", True, [lost, left.format(6)]), (b"", False, [left.format(3)]),
                                      (b"rest", False, [lost, left.format(10)])):
            talk = Talk(at=AT + 2 * 10**7)
            talk.send(0, payload=b"he")
            talk.send(0, payload=b"llo")
            del talk.frames[0][-1], talk.frames[1][-1]
            if answered:
                talk.send(1)
            if later:
                talk.send(0, payload=later)
            talk.send(1, flags=RST)
            sent = (b"he\0\0\0" + later + b"\0\0").hex()
            size = len(sent) // 2
            with self.subTest(told):
                self.assertEqual(self.client(f"sendfile(3, 5, NULL, {size}) = {size}", talk=talk),
                                 [f"B send 1 {sent}", f"E ok {size}"])
                notes = [line for line in self.notes.lines() if "zeros" in line]
                self.assertEqual([len(notes), *(text in line for text, line in zip(told, notes))],
                                 [len(told), *[True] * len(told)], notes)

    def test_large_calls_are_told_in_parts(self):
        text = "\\x61" * 100000
        found = self.client(f'write(3, "{text}", 100000) = 100000', f'read(3, "{text}", 100000) = 100000')
        self.assertEqual([(line[:8], len(line)) for line in found],
                         [("B send 1", 9 + 131070), ("E ok 655", 10), ("B send 1", 9 + 68930), ("E ok 344", 10),
                          ("B recv 1", 14), ("E data 6", 7 + 131070), ("B recv 1", 14), ("E data 6", 7 + 68930)])

    def test_opening(self):
        self.assertEqual(self.told([SOCKET, f"connect(3, {address(ONE)}, 16) = -1 EINPROGRESS (x)",
                                    "getsockopt(3, SOL_SOCKET, SO_ERROR, [0], [4]) = 0"]),
                         ["B open 0 4000 80", "E ok 1", "B await 1", "E ok"])
        again = f"connect(3, {address(ONE)}, 16) = "
        self.assertEqual(self.told([SOCKET, again + "-1 EINPROGRESS (x)", again + "-1 EALREADY (x)", again + "0"])[2:],
                         ["B await 1", "E again", "B await 1", "E ok"])
        self.assertEqual(self.told([SOCKET, again + "-1 ECONNREFUSED (x)", "close(3) = 0"])[2:],
                         ["B await 1", "E refused", "B close 1", "E ok"])
        self.assertEqual(self.told([SOCKET, again + "-1 EINTR (x)"]), ["B open 0 4000 80", "E ok 1"])
        self.assertEqual(self.told([SOCKET, again + "-1 EADDRNOTAVAIL (x)"]), [])
        mapped = f'connect(3, {address(("::ffff:10.9.0.2", 80), "AF_INET6")}, 28) = 0'
        self.assertEqual(self.told(["socket(AF_INET6, SOCK_STREAM, IPPROTO_IP) = 3", mapped])[0], "B open 0 4000 80")

    def test_listening(self):
        self.assertEqual(self.server("listen(3, 9) = 0", "accept4(3, 0x7f, [16], SOCK_NONBLOCK) = -1 EAGAIN (x)",
                                     "shutdown(4, SHUT_WR) = 0"), ["B accept 1", "E again", "B shut 2", "E ok"])
        self.assertEqual(self.told([SOCKET, f"bind(3, {address(ONE)}, 16) = 0", "listen(3, 5) = 0",
                                    "accept(3, NULL, NULL) = 4", 'read(4, "a", 1) = 1'], host=1)[2:],
                         ["B accept 1", "E ok 2", "B recv 2 1", "E data 61"])
        self.assertEqual(self.server("shutdown(3, SHUT_RDWR) = 0", "close(3) = 0"), ["B close 1", "E ok"])
        self.assertEqual(self.server("shutdown(3, SHUT_WR) = 0", "close(3) = 0"), ["B close 1", "E ok"])

    def test_shutdowns(self):
        self.assertEqual(self.client("shutdown(3, SHUT_RD) = 0", 'read(3, "", 9) = 0'), [])
        self.assertEqual(self.client("shutdown(3, SHUT_RDWR) = 0"), ["B shut 1", "E ok"])
        self.assertEqual(self.client("shutdown(3, SHUT_WR) = -1 ENOTCONN (x)"), [])

    def test_a_fault_is_told_again(self):
        reset = "read(3, 0x7f, 9) = -1 ECONNRESET (x)"
        self.assertEqual(self.client(reset, 'read(3, "", 9) = 0', 'write(3, "a", 1) = -1 EPIPE (x)'),
                         ["B recv 1 9", "E reset", "B recv 1 9", "E reset", "B send 1 61", "E reset"])
        self.assertEqual(self.client("shutdown(3, SHUT_WR) = 0", 'write(3, "a", 1) = -1 EPIPE (x)'),
                         ["B shut 1", "E ok", "B send 1 61", "E closed"])

    def test_interrupted_calls_are_left_out(self):
        self.assertEqual(self.client("read(3, 0x7f, 9) = ? ERESTARTSYS (x)", 'write(3, "a", 1) = -1 EINTR (x)'), [])
        self.assertEqual(self.notes.left_out["interrupted calls"][0], 2)

    def test_closing(self):
        self.assertEqual(self.client("close(3) = 0", "close(3) = -1 EBADF (x)"), ["B close 1", "E ok"])
        self.assertEqual(self.client("setsockopt(3, SOL_SOCKET, SO_LINGER, {l_onoff=1, l_linger=0}, 8) = 0",
                                     "close(3) = 0"), ["B abort 1", "E ok"])
        self.assertEqual(self.client("setsockopt(3, SOL_SOCKET, SO_LINGER, {l_onoff=1, l_linger=5}, 8) = 0",
                                     "close(3) = 0"), ["B close 1", "E ok"])
        self.assertEqual(self.client("exit_group(0) = ?", "+++ exited with 0 +++"), ["B close 1", "E ok"])
        self.assertEqual(self.client("--- SIGTERM {si_signo=SIGTERM} ---", "+++ killed by SIGTERM +++"),
                         ["B close 1", "E ok"])
        self.assertEqual(self.client("close_range(3, 4294967295, 0) = 0"), ["B close 1", "E ok"])

    def test_sockets_that_are_closed_at_once_do_not_wait_for_each_other(self):
        step = 2 * 10**7
        talk = both_of(Talk(at=AT + step), Talk(zero=("10.9.0.1", 4001), at=AT + 3 * step))
        opening = ["socket(AF_INET, SOCK_STREAM|SOCK_CLOEXEC, IPPROTO_TCP) = 3", CONNECT,
                   "socket(AF_INET, SOCK_STREAM|SOCK_CLOEXEC, IPPROTO_TCP) = 4", CONNECT.replace("(3", "(4")]
        for closing in (["exit_group(0) = ?", "+++ exited with 0 +++"], ["close_range(3, 4294967295, 0) = 0"],
                        ['execve("a", ["a"], 0x7f) = 0']):
            with self.subTest(closing=closing):
                self.assertEqual(self.told([*opening, *closing], talk=talk)[8:],
                                 ["B close 1", "B close 2", "E ok", "E ok"])
                self.assertEqual(len(set(self.threads[8:10])), 2)

    def test_descriptors_count(self):
        last = "close(3) = 0"
        for before, after in (("dup(3) = 5", "close(5) = 0"), ("dup2(3, 5) = 5", "close(5) = 0"),
                              ("dup3(3, 5, O_CLOEXEC) = 5", "close(5) = 0"),
                              ("fcntl(3, F_DUPFD_CLOEXEC, 5) = 5", 'execve("a", ["a"], 0x7f) = 0'),
                              ("fork() = 8", (8, "+++ exited with 0 +++")),
                              ("clone(child_stack=NULL, flags=SIGCHLD) = 8", (8, "close(3) = 0")),
                              ("clone3({flags=CLONE_VFORK|CLONE_VM, stack=0x7f}, 88) = 8",
                               (8, "+++ exited with 0 +++"))):
            with self.subTest(before=before):
                self.assertEqual(self.client(before, last), [])
                self.assertEqual(self.client(before, last, after), ["B close 1", "E ok"])
                self.assertEqual(self.client(before, after), [])

    def test_threads_share_descriptors(self):
        clone = "clone3({flags=CLONE_VM|CLONE_FILES|CLONE_THREAD, stack=0x7f}, 88) = 8"
        self.assertEqual(self.client(clone, (8, "close(3) = 0")), ["B close 1", "E ok"])
        self.assertEqual(self.client(clone, (8, "+++ exited with 0 +++")), [])
        self.assertEqual(self.client(clone, (8, "+++ exited with 0 +++"), "+++ exited with 0 +++"),
                         ["B close 1", "E ok"])

    def test_a_descriptor_that_is_passed_on(self):
        passed = f"{PASSING} = 1"
        came = (8, passed.replace("sendmsg(6", "recvmsg(6").replace("[3]", "[9]"))
        self.assertEqual(self.client(passed, "close(3) = 0", came, (8, 'write(9, "a", 1) = 1'), (8, "close(9) = 0")),
                         ["B send 1 61", "E ok 1", "B close 1", "E ok"])

    def test_a_descriptor_that_is_received_before_its_sending_has_ended(self):
        begun = PASSING.removesuffix(")")
        came = begun.replace("sendmsg(6", "recvmsg(5").replace("[3]", "[9]")
        self.assertEqual(self.client(f"{begun} <unfinished ...>", (8, f"{came}) = 1"), "<... sendmsg resumed>) = 1",
                                     "close(3) = 0", (8, 'write(9, "a", 1) = 1'), (8, "close(9) = 0")),
                         ["B send 1 61", "E ok 1", "B close 1", "E ok"])

    def test_what_did_not_end_has_no_answer(self):
        self.assertEqual(self.client("read(3,  <unfinished ...>"), ["B recv 1 65535"])

    def test_listeners_that_share_a_port_are_one(self):
        second = ["socket(AF_INET, SOCK_STREAM, IPPROTO_TCP) = 5", f"bind(5, {address(ONE)}, 16) = 0",
                  "listen(5, 5) = 0"]
        self.assertEqual(self.server(*second, "close(3) = 0", "close(5) = 0"), ["B close 1", "E ok"])

    def test_io_uring_is_an_error(self):
        with self.assertRaisesRegex(Problem, "io_uring"):
            self.client("io_uring_setup(8, {flags=0}) = 5")

    def test_accepts_of_two_threads_begin_in_the_order_of_the_queue(self):
        whole = both_of(*[Talk(zero=("10.9.0.1", port), at=AT + number * 10**6)
                          for number, port in enumerate((4000, 4001))])
        lines = [SOCKET, f"bind(3, {address(ONE)}, 16) = 0", "listen(3, 5) = 0", "fork() = 8",
                 "accept(3,  <unfinished ...>", (8, f"accept(3, {address(ZERO)}, [16]) = 4"),
                 f"<... accept resumed>{address(('10.9.0.1', 4001))}, [16]) = 5"]
        self.assertEqual(self.told(lines, host=1, talk=whole)[2:], ["B accept 1", "B accept 1", "E ok 2", "E ok 3"])
        self.assertEqual(self.threads[2:4], ["12", "11"])

    def test_accepts_that_begin_at_one_moment_keep_the_order_of_the_queue(self):
        first, second = (Talk(zero=("10.9.0.1", port), at=AT + number * 10**6)
                         for number, port in enumerate((4000, 4001)))
        lines = [SOCKET, f"bind(3, {address(ONE)}, 16) = 0", "listen(3, 5) = 0", "fork() = 8",
                 (8, "accept(3,  <unfinished ...>"), "accept(3,  <unfinished ...>",
                 (8, f"<... accept resumed>{address(('10.9.0.1', 4001))}, [16]) = 5"),
                 f"<... accept resumed>{address(ZERO)}, [16]) = 4", (8, 'read(5, "a", 1) = 1')]
        self.assertEqual(self.told(lines, host=1, talk=both_of(first, second))[2:],
                         ["B accept 1", "B accept 1", "E ok 2", "E ok 3", "B recv 2 1", "E data 61"])
        # The thread whose connection was completed first begins first.
        self.assertEqual(self.threads[2:6], ["11", "12", "12", "11"])


if __name__ == "__main__":
    unittest.main()
