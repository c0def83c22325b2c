"""Figures of a connection, counted from its packets as Wireshark counts them: round trips, retransmissions, windows."""
