"""The RFC sections of each rule that has some, as docs/reference/rules.md states them."""

SECTIONS = {
    "socket": "9293, 3.9.1.1 (it leaves the form of the name open)",
    "call-answer": "9293, 3.9.1, 3.10.1 to 3.10.6",
    "no-endpoint": "9293, 3.3.2, 3.10",
    "state": "9293, 3.3.2, 3.5, 3.5.2, 3.10.4, 3.10.5, 3.10.7.1 to 3.10.7.3",
    "iss": "9293, 3.4.1; 7323, 2.2 (the shift comes with the number)",
    "bytes-differ": "9293, 3.1, 3.4; 7323, 2.2, 2.3",
    "payload-range": "9293, 3.5.3, 3.8, 3.10.2, 3.10.4",
    "ack-field": "9293, 3.1, 3.10.7.4",
    "old-data": "9293, 3.8.1, 3.8.4; 6298, 5; 5681, 3.2; 8985, 7.3",
    "offered": "9293, 3.8.6, 3.8.6.1; 7323, 2.3",
    "congestion": "5681, 3.1, 3.2 (step 1); 6928, 2",
    "size": "9293, 3.7.1",
    "copy-differs": "9293, 3.1",
    "lifetime": "9293, 3.4.2",
    "number": "9293, 3.4",
    "unacceptable": "9293, 3.4, 3.10.7.4 (first, fourth)",
    "ack-range": "9293, 3.10.7.3, 3.10.7.4 (fifth)",
    "growth": "5681, 3.1, 3.2; 6928, 2",
    "sample": "6298, 3",
    "timer-off": "6298, 5.1, 5.2; 9293, 3.6.1, 3.8.3, 3.8.6.1; 8985, 7.2, 7.3",
    "timer-early": "6298, 2, 4, 5; 9293, 3.6.1, 3.8.6.1; 8985, 7.2",
    "recovery": "5681, 2, 3.2 (steps 2 to 4); 3522, 3.2; 4015, 3.2; 5682, 3",
    "scale-unread": "7323, 2.2 (the rule is specific to this profile)",
    "dropped": "9293, 3.10.7; 5961, 3.2; 7323, 3.2, 5.3",
    "discarded": "9293, 3.6.1, 3.10.7.4",
    "process-late": "9293, 3.10.7",
    "send-late": "9293, 3.10.2, 3.10.7",
    "ack-late": "9293, 3.8.6.3, 3.10.7.4; 5681, 4.2",
    "expiry-late": "6298, 2.1, 5.1 to 5.3",
    "resend-late": "6298, 5.4",
    "probe-late": "9293, 3.8.6.1",
    "start-late": "9293, 3.8.6.2.1, 3.10.2, 3.10.4",
    "reset-late": "9293, 3.10.5",
    "resent": "6298, 5.4, 5.5; 5681, 3.2",
    "resent-beyond": "5681, 3.1",
    "ack-excess": "5681, 4.2",
    "sack-untrue": "2018, 2 to 4",
    "echo": "7323, 3.2, 4.3",
    "clock-falls": "7323, 5.2",
    "sample-due": "6298, 3",
    "answer-late": "9293, 3.9.1",
}


def described(rule):
    """A rule and its RFC sections in words."""
    if rule not in SECTIONS:
        return f"rule {rule}"
    sections = "; ".join(f"RFC {part}" for part in SECTIONS[rule].split("; "))
    return f"rule {rule}: {sections}"
