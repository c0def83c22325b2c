"""Captures: their packets, the connections that these form, and how clocks differ."""
