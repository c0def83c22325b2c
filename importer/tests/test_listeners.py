"""Tests the traces of hosts that have several listeners on one port."""
import os
import unittest

from tcpwit_importer.capture.segments import ACK, RST

from .test_command import AT, CLIENT, WithFiles, run, talk
from .wire import ONE, SECOND, ZERO, Talk, address

ZERO_6, ONE_6 = ("fd09::1", 4000), ("fd09::2", 80)
ANY, ANY_6 = ("0.0.0.0", 80), ("::", 80)


def listener(number, end, only_v6=True):
    """The calls that open a listener at an address."""
    if ":" not in end[0]:
        return [f"socket(AF_INET, SOCK_STREAM, IPPROTO_TCP) = {number}", f"bind({number}, {address(end)}, 16) = 0",
                f"listen({number}, 5) = 0"]
    return [f"socket(AF_INET6, SOCK_STREAM, IPPROTO_TCP) = {number}",
            f"setsockopt({number}, SOL_IPV6, IPV6_V6ONLY, [{int(only_v6)}], 4) = 0",
            f"bind({number}, {address(end, 'AF_INET6')}, 28) = 0", f"listen({number}, 5) = 0"]


def rows(process, begin, texts):
    """Lines of a log, a microsecond apart."""
    return [(process, begin + 1000 * place, text) for place, text in enumerate(texts)]


def refused(**options):
    """A connection that the server's host resets."""
    found = talk(**options)
    found.frames = {host: frames[:1] for host, frames in found.frames.items()}
    found.at, found.next = AT + 2 * 10**6, {0: 1001, 1: 0}
    found.send(1, ACK | RST)
    return found


class Listeners(WithFiles):
    def traces(self, talks, server, client):
        """The calls of each trace, by name; only of the server, without numbers."""
        for host in (0, 1):
            talks[0].frames[host] = sorted((frame for each in talks for frame in each.frames[host]),
                                           key=lambda frame: frame[0])
        words = [*talks[0].write(self.folder), *self.write_logs(client, server), "--out", f"{self.folder}/out",
                 "--no-check"]
        os.makedirs(f"{self.folder}/out", exist_ok=True)
        status, _, error = run(*words)
        self.assertEqual(status, 0, error)
        found = {}
        for name in sorted(os.listdir(f"{self.folder}/out")):
            with open(f"{self.folder}/out/{name}", encoding="ascii") as file:
                texts = [line.rstrip("\n").split(" ", 2)[2] for line in file if " B " in line or " E " in line]
            os.remove(f"{self.folder}/out/{name}")
            found[name] = sorted(" ".join(text.split()[:4]) if "listen" in text else text.split()[1] for text in texts
                                 if text.startswith(("B listen", "B accept", "B open", "E refused")))
        return found

    def two(self, *listeners):
        """The traces of a server with these listeners, to which IPv4 and IPv6 connect."""
        server = [text for number, end in zip((3, 5), listeners) for text in listener(number, end)]
        server += [f"accept(3, {address(ZERO)}, [16]) = 6", f"accept(5, {address(ZERO_6, 'AF_INET6')}, [28]) = 7"]
        client = [*CLIENT[:2], (7, AT - 10**6 + 5000, "socket(AF_INET6, SOCK_STREAM, IPPROTO_TCP) = 4"),
                  (7, AT - 10**6 + 6000, f"connect(4, {address(ONE_6, 'AF_INET6')}, 28) = 0")]
        return self.traces([Talk(at=AT), Talk(zero=ZERO_6, one=ONE_6, at=AT + 1000)],
                           rows(8, AT - SECOND, server), client)

    def test_each_of_two_listeners_has_a_trace(self):
        for listeners in ((ONE, ONE_6), (ANY, ANY_6), (ONE, ANY_6), (ANY, ONE_6)):
            with self.subTest(listeners):
                self.assertEqual(self.two(*listeners),
                                 {name: ["B listen 1 80", "accept", "open"]
                                  for name in ("run-10.9.0.2_80.trace", "run-fd09__2_80.trace")})

    def test_one_listener_of_both_families(self):
        server = [*listener(3, ANY_6, only_v6=False),
                  f"accept(3, {address(('::ffff:10.9.0.1', 4000), 'AF_INET6')}, [28]) = 6",
                  f"accept(3, {address(ZERO_6, 'AF_INET6')}, [28]) = 7"]
        client = [*CLIENT[:2], (7, AT - 10**6 + 5000, "socket(AF_INET6, SOCK_STREAM, IPPROTO_TCP) = 4"),
                  (7, AT - 10**6 + 6000, f"connect(4, {address(ONE_6, 'AF_INET6')}, 28) = 0")]
        found = self.traces([Talk(at=AT), Talk(zero=ZERO_6, one=ONE_6, at=AT + 1000)],
                            rows(8, AT - SECOND, server), client)
        self.assertEqual(found, {"run.trace": ["B listen 1 80", "accept", "accept", "open", "open"]})

    def test_an_address_without_a_listener(self):
        """IPv6 is refused, then IPv4 is tried."""
        client = [(7, AT - 10**6, "socket(AF_INET6, SOCK_STREAM, IPPROTO_TCP) = 3"),
                  (7, AT - 10**6 + 1000, f"connect(3, {address(ONE_6, 'AF_INET6')}, 28) = -1 ECONNREFUSED (x)"),
                  (7, AT + 10**7, "close(3) = 0"), *rows(7, AT + 2 * 10**7, [text for _, _, text in CLIENT[:2]])]
        for at in (ONE, ANY):
            found = self.traces([refused(zero=ZERO_6, one=ONE_6), Talk(at=AT + 3 * 10**7)],
                                rows(8, AT - SECOND, [*listener(3, at),
                                                      f"accept(3, {address(ZERO)}, [16]) = 6"]), client)
            self.assertEqual(found,
                             {"run-10.9.0.2_80.trace": ["B listen 1 80", "accept", "open"],
                              "run-fd09__2_80.trace": ["open", "refused"]}, at)

    def test_a_listener_only_for_ipv6_does_not_hear_ipv4(self):
        client = [CLIENT[0], (7, AT - 10**6, CLIENT[1][2].replace("= 0", "= -1 ECONNREFUSED (x)")),
                  (7, AT + 10**7, "close(3) = 0"),
                  *rows(7, AT + 2 * 10**7,
                        ["socket(AF_INET6, SOCK_STREAM, IPPROTO_TCP) = 3",
                         f"connect(3, {address(ONE_6, 'AF_INET6')}, 28) = 0"])]
        found = self.traces([refused(), Talk(zero=ZERO_6, one=ONE_6, at=AT + 3 * 10**7)],
                            rows(8, AT - SECOND,
                                 [*listener(3, ANY_6), f"accept(3, {address(ZERO_6, 'AF_INET6')}, [28]) = 6"]), client)
        self.assertEqual(found,
                         {"run-10.9.0.2_80.trace": ["open", "refused"],
                          "run-fd09__2_80.trace": ["B listen 1 80", "accept", "open"]})

    def test_a_listen_that_failed_hears_nothing(self):
        client = [CLIENT[0], (7, AT - 10**6, CLIENT[1][2].replace("= 0", "= -1 ECONNREFUSED (x)")),
                  (7, AT + 10**7, "close(3) = 0"),
                  *rows(7, AT + 2 * 10**7,
                        ["socket(AF_INET6, SOCK_STREAM, IPPROTO_TCP) = 3",
                         f"connect(3, {address(ONE_6, 'AF_INET6')}, 28) = 0"])]
        failed = [*listener(5, ANY)[:2], "listen(5, 5) = -1 EADDRINUSE (x)"]
        found = self.traces([refused(), Talk(zero=ZERO_6, one=ONE_6, at=AT + 3 * 10**7)],
                            rows(8, AT - SECOND,
                                 [*listener(3, ONE_6), *failed,
                                  f"accept(3, {address(ZERO_6, 'AF_INET6')}, [28]) = 6"]), client)
        self.assertEqual(found,
                         {"run-10.9.0.2_80.trace": ["open", "refused"],
                          "run-fd09__2_80.trace": ["B listen 1 80", "accept", "open"]})

    def test_listeners_one_after_the_other(self):
        """The first listener accepts a connection to the address of the second."""
        other = ("10.9.0.1", 4002)
        server = [*rows(8, AT - SECOND, [*listener(3, ANY), f"accept(3, {address(ZERO)}, [16]) = 6"]),
                  *rows(8, AT + 2 * 10**7,
                        ["close(3) = 0", *listener(5, ONE), f"accept(5, {address(other)}, [16]) = 7"])]
        client = [*CLIENT[:2],
                  *rows(7, AT + 2 * 10**7,
                        ["socket(AF_INET, SOCK_STREAM, IPPROTO_TCP) = 4", f"connect(4, {address(ONE)}, 16) = 0"])]
        found = self.traces([Talk(at=AT), Talk(zero=other, at=AT + 3 * 10**7)], server, client)
        self.assertEqual(found,
                         {name: ["B listen 1 80", "accept", "open"]
                          for name in ("run-10.9.0.2_80.trace", "run-10.9.0.2_80-2.trace")})

    def test_a_connection_to_another_port_keeps_its_trace(self):
        other = ("10.9.0.2", 81)
        server = [*listener(3, ONE), *listener(5, ONE_6), *listener(8, other), f"accept(3, {address(ZERO)}, [16]) = 6",
                  f"accept(5, {address(ZERO_6, 'AF_INET6')}, [28]) = 7",
                  f"accept(8, {address(('10.9.0.1', 4002))}, [16]) = 9"]
        client = [*CLIENT[:2],
                  *rows(7, AT - 10**6 + 5000,
                        ["socket(AF_INET6, SOCK_STREAM, IPPROTO_TCP) = 4",
                         f"connect(4, {address(ONE_6, 'AF_INET6')}, 28) = 0",
                         "socket(AF_INET, SOCK_STREAM, IPPROTO_TCP) = 5", f"connect(5, {address(other)}, 16) = 0"])]
        found = self.traces([Talk(at=AT), Talk(zero=ZERO_6, one=ONE_6, at=AT + 1000),
                             Talk(zero=("10.9.0.1", 4002), one=other, at=AT + 2000)],
                            rows(8, AT - SECOND, server), client)
        self.assertEqual(found, {name: [f"B listen 1 {port}", "accept", "open"] for name, port in
                                 (("run-10.9.0.2_80.trace", 80), ("run-fd09__2_80.trace", 80), ("run.trace", 81))})

    def test_an_accept_without_an_address_returns_a_connection_to_its_listener(self):
        server = [*listener(3, ONE), *listener(5, ONE_6), "accept(5, NULL, NULL) = 7", "accept(3, NULL, NULL) = 6",
                  'sendfile(7, 9, NULL, 1) = 1']
        both = [Talk(at=AT), Talk(zero=ZERO_6, one=ONE_6, at=AT + 1000)]
        for each, text in zip(both, (b"4", b"6")):
            each.send(1, ACK, text)
        client = [*CLIENT[:2], (7, AT - 10**6 + 5000, "socket(AF_INET6, SOCK_STREAM, IPPROTO_TCP) = 4"),
                  (7, AT - 10**6 + 6000, f"connect(4, {address(ONE_6, 'AF_INET6')}, 28) = 0")]
        for host in (0, 1):
            both[0].frames[host] = sorted((frame for each in both for frame in each.frames[host]),
                                          key=lambda frame: frame[0])
        words = [*both[0].write(self.folder),
                 *self.write_logs(client, [*rows(8, AT - SECOND, server[:-3]), *rows(8, AT + SECOND, server[-3:])]),
                 "--out", f"{self.folder}/out", "--no-check", "--keep-gaps"]
        os.makedirs(f"{self.folder}/out")
        self.assertEqual(run(*words)[0], 0)
        with open(f"{self.folder}/out/run-fd09__2_80.trace", encoding="ascii") as file:
            self.assertIn(f"B send 3 {b'6'.hex()}\n", file.read())


if __name__ == "__main__":
    unittest.main()
