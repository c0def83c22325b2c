"""Traces: their headers, lines, endpoints and calls."""
