"""Calls that no log has, inferred from the segments of a connection."""
