"""Network namespaces, the interface pairs that connect them, and their kernel settings."""
import contextlib
import ctypes
import fcntl
import os
import socket
import struct
import subprocess

from ..problem import Problem, one_line

NEW_NETWORK = 0x40000000
SIOCETHTOOL = 0x8946
# Transmit checksums, segmentation in the card, segmentation in the stack, joining of received segments.
OFFLOADS = (0x17, 0x1F, 0x24, 0x2C)
ADDRESSES = ("10.9.0.1", "10.9.0.2")
ADDRESSES_6 = ("fd09::1", "fd09::2")
LINK_ADDRESSES = ("02:00:00:00:00:01", "02:00:00:00:00:02")
# Only what RFC 9293, 6298 and 5681 describe: no recovery by SACK or RACK, no probes, no undo, immediate
# acknowledgments.
PLAIN = {
    "tcp_sack": 0, "tcp_timestamps": 0, "tcp_ecn": 0, "tcp_congestion_control": "reno", "tcp_early_retrans": 0,
    "tcp_recovery": 0, "tcp_frto": 0, "tcp_no_metrics_save": 1, "tcp_slow_start_after_idle": 0,
    "tcp_window_scaling": 1,
}
LIBC = ctypes.CDLL(None, use_errno=True)


def _checked(result, what):
    if result != 0:
        raise Problem(f"{what}: {os.strerror(ctypes.get_errno())}",
                      "network namespaces need root: sudo tcpwit-record ..")


class Namespace:
    """A network namespace, which exists as long as this object or a process in it."""

    def __init__(self):
        before = os.open("/proc/self/ns/net", os.O_RDONLY)
        try:
            _checked(LIBC.unshare(NEW_NETWORK), "can't create a network namespace")
            self.file = os.open("/proc/self/ns/net", os.O_RDONLY)
        finally:
            LIBC.setns(before, NEW_NETWORK)
            os.close(before)
        with self.inside():
            run("ip", "link", "set", "lo", "up")
            setting("ip_unprivileged_port_start", 0)

    def enter(self):
        """Moves this thread into the namespace."""
        _checked(LIBC.setns(self.file, NEW_NETWORK), "can't enter a network namespace")

    def processes(self):
        """All processes in the namespace."""
        return [int(name) for name in os.listdir("/proc") if name.isdigit() and self._has(name)]

    def _has(self, process):
        try:
            return os.path.samestat(os.stat(f"/proc/{process}/ns/net"), os.fstat(self.file))
        except OSError:
            # It has ended.
            return False

    @contextlib.contextmanager
    def inside(self):
        """Runs a function in the namespace, and returns to the old one."""
        before = os.open("/proc/self/ns/net", os.O_RDONLY)
        self.enter()
        try:
            yield
        finally:
            LIBC.setns(before, NEW_NETWORK)
            os.close(before)


def run(*words, files=()):
    """Runs a system command. If it fails, its output is the cause."""
    try:
        done = subprocess.run(words, capture_output=True, check=False, pass_fds=files)
    except FileNotFoundError as error:
        raise Problem(f"{words[0]} is not installed", "install it: apt-get install iproute2") from error
    if done.returncode:
        raise Problem(f"{' '.join(words)}: {one_line(done.stderr) or done.returncode}",
                      "check whether this kernel has veth interfaces (modprobe veth)")


def setting(name, value):
    """Sets /proc/sys/net/ipv4/NAME in the namespace of this thread. An older kernel may lack it."""
    try:
        with open("/proc/sys/net/ipv4/" + name, "w", encoding="ascii") as file:
            file.write(str(value))
    except OSError:
        pass


def congestion_control():
    """The kernel's congestion control in the namespace of this thread; None if it can't be read."""
    try:
        with open("/proc/sys/net/ipv4/tcp_congestion_control", encoding="ascii") as file:
            return file.read().strip()
    except OSError:
        return None


def offloads_off(name):
    """Turns off offloads that enlarge segments or leave checksums unfinished."""
    with socket.socket(socket.AF_INET, socket.SOCK_DGRAM) as probe:
        for command in OFFLOADS:
            value = (ctypes.c_uint32 * 2)(command, 0)
            request = struct.pack("16sP", name.encode(), ctypes.addressof(value))
            with contextlib.suppress(OSError):
                fcntl.ioctl(probe, SIOCETHTOOL, request)


def joined_pair(kernel, version):
    """Two hosts and the namespace between them, with interfaces w0 and w1 at the hosts, and c0 and c1 in between."""
    between, hosts = Namespace(), (Namespace(), Namespace())
    for number, host in enumerate(hosts):
        with between.inside():
            run("ip", "link", "add", f"w{number}", "address", LINK_ADDRESSES[number], "type", "veth", "peer", "name",
                f"c{number}")
            run("ip", "link", "set", f"w{number}", "netns", f"/proc/self/fd/{host.file}", files=(host.file,))
            run("ip", "link", "set", f"c{number}", "up")
            if kernel == "plain":
                offloads_off(f"c{number}")
        with host.inside():
            interface(number, kernel, version)
    return between, hosts


def interface(number, kernel, version):
    """Sets up the interface of a host, in its namespace."""
    name = f"w{number}"
    run("ip", "address", "add", ADDRESSES[number] + "/24", "dev", name)
    run("ip", "-6", "address", "add", ADDRESSES_6[number] + "/64", "dev", name, "nodad")
    run("ip", "link", "set", name, "up")
    # Neighbor discovery would delay the first segment, but not its retransmission.
    for addresses in (ADDRESSES, ADDRESSES_6):
        run("ip", "neighbor", "replace", addresses[1 - number], "lladdr", LINK_ADDRESSES[1 - number], "dev", name,
            "nud", "permanent")
    if kernel != "plain":
        return
    for key, value in (PLAIN | ({"tcp_window_scaling": 0} if version == 1 else {})).items():
        setting(key, value)
    offloads_off(name)
    # Acknowledge each segment at once: a delayed acknowledgment covers several, and the kernel's window then grows by
    # several.
    words = ["quickack", "1"] + (["initcwnd", "3"] if version == 1 else [])
    run("ip", "route", "change", "10.9.0.0/24", "dev", name, "src", ADDRESSES[number], *words)
    run("ip", "-6", "route", "replace", "fd09::/64", "dev", name, "proto", "kernel", "metric", "256", *words)
