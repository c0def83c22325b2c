"""Remedies that several errors share. Those of tcpwit-record name only its own options."""

# For your own captures and logs.
WHOLE_PACKETS = "record complete packets: tcpdump -s 0"
WIDER = "capture with -s 96 or more"
BUFFER = "record again with a larger buffer: tcpdump -s 130000 -B 262144 --immediate-mode -U"
ALL_CALLS = "trace all calls from the program's start, with strace -f and no -e (io_uring can't be traced)"
OFFLOADS_OFF = "turn the offloads off: ethtool -K IF tso off gso off gro off"
LESS_AT_ONCE = "judge fewer connections at once, with --jobs 1, or use a machine with more memory"

# For tcpwit-record.
NOTHING_SENT = "check that the programs use TCP; --interface, if given, must be the one that they use"
ELSEWHERE = ("record the process that uses TCP itself: strace doesn't see daemons that were already running, "
             "or connections that the kernel makes (NFS, NBD)")
LARGER_BUFFER = "give the captures a larger buffer, such as --buffer 256, or record fewer bytes"
