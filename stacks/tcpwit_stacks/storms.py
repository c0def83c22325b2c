"""Storms of acknowledgments: where almost all lines of a trace are acknowledgments of acknowledgments."""

# How many acknowledgments count as much as one other segment, and how many lines of a storm are judged.
WEIGHT, KEPT = 20, 100


def is_acknowledgment(line):
    """Whether a line of the trace shows a segment that only acknowledges."""
    words = line.split(" ")
    if words[2] not in ("O", "I"):
        return False
    return words[4][26:28] in ("10", "18") and len(words[4]) // 2 == int(words[4][24], 16) * 4


def storm(lines):
    """The place after which almost all lines up to the end are acknowledgments; None if there are only a few."""
    most, weight, began = KEPT, 0, None
    for at in range(len(lines) - 1, -1, -1):
        weight += 1 if is_acknowledgment(lines[at]) else -WEIGHT
        if weight > most:
            most, began = weight, at
    return began
