"""Calls in the logs that strace wrote."""
