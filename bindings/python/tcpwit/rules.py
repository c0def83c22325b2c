"""The rules that a no names. tools/rule_names.py writes this file."""
from __future__ import annotations

import enum

# The numbers of the rules, in their order.
NUMBERS = (*range(1, 58),)


class Rule(enum.Enum):
    """A rule that a no names; the value is its name. docs/reference/rules.md explains them."""

    LINE_RANGE = "line-range"
    LINE_AGAIN = "line-again"
    THREAD_ORDER = "thread-order"
    MOMENT_FALLS = "moment-falls"
    MOMENT_OFF = "moment-off"
    OVERDUE = "overdue"
    THREAD_BUSY = "thread-busy"
    NO_CALL = "no-call"
    DONE_TWICE = "done-twice"
    ANSWER_DIFFERS = "answer-differs"
    SOCKET = "socket"
    CALL_ANSWER = "call-answer"
    NO_ENDPOINT = "no-endpoint"
    STATE = "state"
    ISS = "iss"
    BYTES_DIFFER = "bytes-differ"
    NOT_MADE = "not-made"
    PAYLOAD_RANGE = "payload-range"
    ACK_FIELD = "ack-field"
    OLD_DATA = "old-data"
    OFFERED = "offered"
    CONGESTION = "congestion"
    SIZE = "size"
    NO_EMISSION = "no-emission"
    COPY_DIFFERS = "copy-differs"
    LIFETIME = "lifetime"
    INBOX = "inbox"
    NOT_PEER = "not-peer"
    NUMBER = "number"
    UNACCEPTABLE = "unacceptable"
    ACK_RANGE = "ack-range"
    QUEUE_FULL = "queue-full"
    GROWTH = "growth"
    SAMPLE = "sample"
    TIMER_OFF = "timer-off"
    TIMER_EARLY = "timer-early"
    RECOVERY = "recovery"
    SCALE_UNREAD = "scale-unread"
    UNPLACED = "unplaced"
    DROPPED = "dropped"
    DISCARDED = "discarded"
    PROCESS_LATE = "process-late"
    SEND_LATE = "send-late"
    ACK_LATE = "ack-late"
    EXPIRY_LATE = "expiry-late"
    RESEND_LATE = "resend-late"
    PROBE_LATE = "probe-late"
    START_LATE = "start-late"
    RESET_LATE = "reset-late"
    RESENT = "resent"
    RESENT_BEYOND = "resent-beyond"
    ACK_EXCESS = "ack-excess"
    SACK_UNTRUE = "sack-untrue"
    ECHO = "echo"
    CLOCK_FALLS = "clock-falls"
    SAMPLE_DUE = "sample-due"
    ANSWER_LATE = "answer-late"

    @property
    def number(self) -> int:
        """The rule's number: 1 to 57."""
        return NUMBERS[list(Rule).index(self)]
