"""Hosts that may have given up.

After some retransmissions without an answer, a host may give up a connection, such as after TCP_USER_TIMEOUT. No
segment shows that, and without calls no answer does. So if a host falls silent then, and would be late, it's judged as
one that gave up (RFC 9293, 3.8.3).
"""

# As many expiries without an answer permit that.
EXPIRIES = 3
# The rules that refuse a silent host.
LATE = ("expiry-late", "resend-late", "probe-late")


def last_attempt(packets, end):
    """The last segment of an end, if it's at least the third retransmission in a row, and nothing came since; else
    None."""
    tail = packets[-EXPIRIES - 1:]
    if len(tail) <= EXPIRIES or any(packet.source != end or packet.number != tail[0].number for packet in tail):
        return None
    return tail[-1]
