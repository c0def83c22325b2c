"""The figures of a connection's ends in words, for the lines of --stats and for a report, and as members for JSON."""
from ..figures.analysis import DUPLICATE_ACK, WINDOW_UPDATE, ZERO_WINDOW
from ..figures.sender import ANSWER, FAST, KEEP_ALIVE, OUT_OF_ORDER, TAIL_PROBE, TIMEOUT, UNNEEDED, WINDOW_PROBE
from ..problem import counted
from .wireshark import SECOND, seconds

ENDS = ("client", "server")
WORDS = {TIMEOUT: "timeout", FAST: "fast", TAIL_PROBE: "tail probe", ANSWER: "answer to a SYN", UNNEEDED: "unneeded"}
# What a line of --stats has if there are any.
COUNTED = {DUPLICATE_ACK: "duplicate ACK", ZERO_WINDOW: "zero window", WINDOW_PROBE: "window probe",
           KEEP_ALIVE: "keep-alive"}
# The rows of a report's table.
ROWS = {OUT_OF_ORDER: "Out of order", DUPLICATE_ACK: "Duplicate ACKs", ZERO_WINDOW: "Zero windows",
        WINDOW_PROBE: "Window probes", WINDOW_UPDATE: "Window updates", KEEP_ALIVE: "Keep-alives"}
OTHERS = (OUT_OF_ORDER, *COUNTED, WINDOW_UPDATE)
MILLISECOND = 10**6


def lines(figures):
    """The lines below a connection's line; none without figures."""
    if not figures:
        return []
    times = [trips(end.trips) for end in figures]
    width = max(map(len, times))
    ends = [f"    {name}{aligned(end.packets, 'packet')}{aligned(end.bytes, 'byte')}   {words:<{width}}   {events(end)}"
            for name, end, words in zip(ENDS, figures, times)]
    return [*map(str.rstrip, ends), f"    time      {lasting(figures[0])}"]


def aligned(count, what):
    """A count with its noun, in columns."""
    number, _, noun = counted(count, what).partition(" ")
    return f"{int(number):>11,} {noun:<{len(what) + 1}}"


def lasting(end):
    """When a connection's packets were captured."""
    return f"{seconds(end.first)} to {seconds(end.last)} ({seconds(end.last - end.first)})"


def trips(found):
    """Round trips: the least, the median and the greatest, or the only one."""
    if not found:
        return "no round trips"
    times = " / ".join(milliseconds(time) for time in (found[1:] if found.count > 1 else found[1:2]))
    return f"{counted(found.count, 'round trip')}: {times} ms"


def milliseconds(time):
    """A time in milliseconds."""
    return f"{time / MILLISECOND:.3f}"


def events(end):
    """What an end sent again and why, and other segments of which there are some."""
    again = sent_again(end)
    found = [again.replace(" ", " sent again ", 1)] if again else []
    found += [f"{end.kinds[OUT_OF_ORDER]} out of order"] if end.kinds[OUT_OF_ORDER] else []
    return "; ".join(found + [counted(end.kinds[kind], words) for kind, words in COUNTED.items() if end.kinds[kind]])


def sent_again(end):
    """How many segments an end sent again, with the causes; empty if none."""
    sent = {cause: count for cause, count in end.retransmissions.items() if count}
    causes = ", ".join(f"{count} {WORDS[cause]}" for cause, count in sent.items())
    return f"{sum(sent.values())} ({causes})" if sent else ""


def members(figures):
    """The members for JSON: an object for each end; none without figures."""
    return {"figures": dict(zip(ENDS, map(of_end, figures)))} if figures else {}


def of_end(end):
    """The members for an end. Times are in seconds."""
    trips_found = {"count": 0}
    if end.trips:
        times = {name: getattr(end.trips, name) / SECOND for name in ("least", "median", "greatest")}
        trips_found = {"count": end.trips.count} | times
    found = {"capture": end.capture, "first": end.first / SECOND, "last": end.last / SECOND,
             "duration": (end.last - end.first) / SECOND, "packets": end.packets, "bytes": end.bytes,
             "repeated": end.repeated, "round_trips": trips_found, "retransmissions": end.retransmissions}
    return found | {kind: end.kinds[kind] for kind in OTHERS}


def rows(figures):
    """The rows of a report's table: what is counted, and the value of each end. What neither end has is left out,
    except in the first rows."""
    yield "Packets", [f"{end.packets:,}" for end in figures]
    yield "Bytes", [f"{end.bytes:,}" + (f" ({end.repeated:,} of them again)" if end.repeated else "")
                    for end in figures]
    yield "Round trips", [trips(end.trips) for end in figures]
    yield "Retransmissions", [sent_again(end) or "0" for end in figures]
    for kind, name in ROWS.items():
        if any(end.kinds[kind] for end in figures):
            yield name, [f"{end.kinds[kind]:,}" for end in figures]
    yield "Time", [lasting(end) for end in figures]
    if len({end.capture for end in figures}) > 1:
        yield "Capture", [end.capture for end in figures]
