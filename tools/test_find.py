#!/usr/bin/python3
"""Tests `tcpwit_lab find`: how it ends, ports 0, where it adds lines, which lines are copies of which, segments that an
attacker chose, which of several witnesses it prefers, hosts that process late or measure few round trips, and duties
that a witness has to keep."""
import glob
import os
import random
import re
import resource
import shlex
import struct
import subprocess
import sys
import unittest
import unittest.mock

sys.dont_write_bytecode = True
TOP = os.path.dirname(os.path.dirname(os.path.abspath(__file__)))
sys.path.insert(0, f"{TOP}/bench")
from hostile_cases import CALLERS, FIRST_EVENT_LINE, WIRES, Case, Connection  # noqa: E402
from hostile_cases import colliding_payload, connected, segments_whose_digests_collide  # noqa: E402

LAB = shlex.split(os.environ.get("TCPWIT_LAB", f"{TOP}/tcpwit_lab"))
DATA = f"{TOP}/crates/test_cases/data"
HEADER = "trace 1\nskew 0\nmsl 1\ngrain 0\nminrto 0\nextra 0\n"
CALL = "1 1 B listen 1 80 0\n2 1 E ok 1\n"
# Ports that no call opened.
UNEXPLAINED = "3 2 O 0 0fa0005000000001000000005002200000000000\n"


def find(trace, *words, seconds=60):
    """The lines of the trace and of the witness that are found, and standard error."""
    ran = subprocess.run([*LAB, "find", *words], input=trace, capture_output=True, text=True, check=True,
                         timeout=seconds)
    lines = ran.stdout.splitlines()
    start = next(at for at, line in enumerate(lines) if line.startswith("witness "))
    return lines[:start], lines[start + 1:], ran.stderr


def copies(witness):
    """For each line with one extra number, that number: of the segment that it sends, or of the line that it copies."""
    steps = [line.split()[1:] for line in witness]
    return {int(step[1]): int(step[2]) for step in steps if step[0] == "L" and len(step) == 3}


class Endings(unittest.TestCase):
    def test_all_other_choices(self):
        said = find(HEADER + CALL + UNEXPLAINED, "--budget", "1000000")[2]
        self.assertRegex(said,
                         "^no choice that find knows explains line 9 of the trace; other choices tried: [1-9][0-9]*\n$")

    def test_a_budget_bounds_what_is_tried(self):
        for budget in (0, 20):
            found = find(HEADER + CALL + UNEXPLAINED, "--budget", str(budget))
            told = re.fullmatch("line 9 of the trace isn't explained, and the budget is spent; other choices tried: "
                                "([0-9]+)\n", found[2])
            self.assertTrue(0 < int(told[1]) < budget if budget else told[1] == "0", told)
            self.assertEqual(find(HEADER + CALL + UNEXPLAINED, "--budget", str(budget)), found)

    def test_nothing_else_is_tried(self):
        self.assertEqual(find(HEADER + CALL, "--budget", "1000000")[2], "")


class PortZero(unittest.TestCase):
    """A step can't name a port 0, so the line of a segment that an endpoint sends from it or to it is refused."""
    HEAD = "trace {}\nskew 0\nmsl 60000000\ngrain 4000\nminrto 200000\nextra 65535\n"
    HEADS = (HEAD.format(1), HEAD.format(4) + "initial 6928\nhosts 1\ncongestion none\n",
             HEAD.format(5) + "initial 6928\nhosts 2\ncongestion full\nslack 0\n",
             HEAD.format(5) + "initial 6928\nhosts 1\ncongestion full\nslack 1000000\n")
    LISTEN = "1 1 B listen 0 80 4\n1 1 E ok 5\n"

    def verdict(self, trace, is_explained):
        """What `check` says about the case that is found, and its witness."""
        lines, witness, said = find(trace)
        self.assertEqual(lines, trace.splitlines())
        self.assertEqual(said == "", is_explained, said)
        case = "".join(f"{line}\n" for line in [*lines, f"witness {trace[6]}", *witness])
        explained = subprocess.run([*LAB, "explain"], input=case, capture_output=True, text=True, timeout=60)
        return explained.stdout.splitlines()[0], witness

    def test_no_endpoint_sends_it(self):
        for head in self.HEADS:
            line = 1 + head.count("\n")
            for ports in ("0fa00000", "00000fa0", "00000000"):
                for flags in ("5002", "5010", "5004"):
                    said, witness = self.verdict(f"{head}1 1 O 0 {ports}00001771000003ef{flags}03e800000000\n", False)
                    self.assertEqual((said, witness), (f"no 2 {line} not-made", [f"1 L {line} 0"]))

    def test_no_listener_answers_a_syn_from_it(self):
        for head in (self.HEADS[1], self.HEADS[3]):
            line = 1 + head.count("\n")
            events = ("2 2 I 0 000000500000177100000000500203e800000000\n"
                      "2 2 O 0 0050000000001771000017725012ffff00000000\n")
            said, witness = self.verdict(head + self.LISTEN + events, False)
            self.assertEqual((said.split()[2:], witness[-1]), ([str(line + 3), "not-made"], f"2 L {line + 3} 0"))

    def test_a_reset_answers_a_segment_from_it(self):
        for head in (self.HEADS[1], self.HEADS[3]):
            events = ("2 2 I 0 0000005000001771000003ef501003e800000000\n"
                      "2 2 O 0 00500000000003ef000000005004000000000000\n")
            self.assertEqual(self.verdict(head + events, True)[0], "yes 2 1")


class AddedLines(unittest.TestCase):
    def test_the_other_lines_are_those_of_the_trace(self):
        kinds = set()
        for path in glob.glob(f"{DATA}/found/*.trace") + glob.glob(f"{DATA}/kernel/*.trace"):
            with open(path, encoding="ascii") as file:
                trace = file.read()
            thread = 1 + max(int(line.split()[1]) for line in trace.splitlines() if line[0].isdigit())
            lines = find(trace)[0]
            added = [line.split()[1:3] == [str(thread), "T"] for line in lines]
            self.assertEqual([line for line, is_added in zip(lines, added) if not is_added], trace.splitlines(), path)
            kinds.update(zip(added, [*added[1:], None]))
        # Lines were added before another one, two together, and at the end.
        self.assertLessEqual({(True, False), (True, True), (True, None)}, kinds)


def seconds_of(trace, wanted):
    """The processor time of a search that must find this witness's copies."""
    before = resource.getrusage(resource.RUSAGE_CHILDREN).ru_utime
    _, witness, said = find(trace)
    after = resource.getrusage(resource.RUSAGE_CHILDREN).ru_utime
    assert (said, copies(witness)) == ("", copies(wanted)), said
    return after - before


class Copies(unittest.TestCase):
    def test_segments_whose_digests_collide(self):
        """If each were compared with all others, they would take about twelve times as long as other segments."""
        case = segments_whose_digests_collide(20_000)
        draws = random.Random(1)
        with unittest.mock.patch("hostile_cases.colliding_payload", lambda _, size: draws.randbytes(size)):
            other = segments_whose_digests_collide(20_000)
        colliding, usual = (seconds_of("".join(line + "\n" for line in one.header + one.events), one.steps)
                            for one in (case, other))
        self.assertLess(colliding, 3 * usual)

    def test_equal_segments(self):
        """Segments of one connection, half of them with one digest, are sent and received in any order, again and
        again."""
        for seed in range(5):
            draws = random.Random(seed)
            case, connection, wanted = Case(), Connection(), {}
            case.header = [*case.header, "hosts 2", "congestion none"]
            case.header[0] = "trace 4"
            opener, _, _ = connected(case, connection)
            texts = []
            for position in range(1, 1 + 60 * 20, 60):
                text = connection.text(0, position, "A", 1)
                payload = colliding_payload(text, 60) if position % 120 else draws.randbytes(60)
                case.call(CALLERS[0], f"send {opener} {payload.hex()}", "ok 60")
                texts.append(connection.text(0, position, "A", 1, payload))
            first = FIRST_EVENT_LINE + 2
            sent = 0
            open_, last = {}, {}
            for _ in range(150):
                index = draws.randrange(sent + 1)
                if draws.random() < 0.5 and index < len(texts):
                    last[index] = first + len(case.events)
                    open_.setdefault(index, []).append(last[index])
                    case.line(WIRES[0], f"O 0 {texts[index]}")
                    sent = max(sent, index + 1)
                elif index < sent:
                    wanted[first + len(case.events)] = open_[index].pop(0) if open_[index] else last[index]
                    case.line(WIRES[1], f"I 1 {texts[index]}")
            lines, witness, said = find("".join(line + "\n" for line in case.header + case.events))
            self.assertEqual((said, lines), ("", case.header + case.events))
            found = copies(witness)
            self.assertEqual({line: found[line] for line in wanted}, wanted)


class Recording:
    """A trace of host 0 alone. Port 4000 is connected to port 80, 40 ms away, and each of its segments acknowledges
    byte `acked`."""

    HEADER = "trace 3,skew 0,msl 120000000,grain 1000,minrto 1000000,extra 0,initial 5681,half 0".split(",")
    CLOCK = 40_000

    def __init__(self, port=4000, begin=0, opener=6):
        self.lines, self.port, self.moment, self.thread = [], port, begin, port
        self.call(f"open 0 {port} 80", f"ok {opener}")
        self.sent(0, None, flags=0x02)
        self.came(0, 1, flags=0x12, after=self.CLOCK)
        self.sent(1, 1)
        self.opener = opener

    def line(self, thread, text, after):
        self.moment += after
        self.lines.append(f"{self.moment} {thread} {text}")
        return len(self.HEADER) + len(self.lines)

    def call(self, asked, answer, after=10):
        self.line(self.thread, f"B {asked}", after)
        self.line(self.thread, f"E {answer}", 1)

    def segment(self, host, ports, numbers, flags, payload):
        seq, ack = numbers[0] + (1000, 50_000)[host], 0 if numbers[1] is None else numbers[1] + (50_000, 1000)[host]
        return struct.pack(">HHIIBBHHH", *ports, seq, ack, 0x50, flags, 65_535, 0, 0).hex() + payload.hex()

    def sent(self, seq, ack, payload=b"", flags=0x10, after=10):
        return self.line(3, f"O 0 {self.segment(0, (self.port, 80), (seq, ack), flags, payload)}", after)

    def came(self, seq, ack, payload=b"", flags=0x10, after=10):
        return self.line(5, f"I 0 {self.segment(1, (80, self.port), (seq, ack), flags, payload)}", after)

    def text(self):
        return "".join(line + "\n" for line in self.HEADER + self.lines)


def moments(witness):
    """When each line has its step, and when each segment is built that a line shows."""
    lines, built, of_line = {}, [], {}
    for moment, word, *rest in (step.split() for step in witness):
        if word == "M":
            built.append(int(moment))
        elif word == "L":
            lines[int(rest[0])] = int(moment)
            if len(rest) == 2:
                of_line[int(rest[0])] = built[int(rest[1]) - 1]
    return lines, of_line


def takings(witness):
    """For the line of each arrival that is processed: when, whether its bytes are kept, and whether it's measured."""
    steps = [step.split() for step in witness]
    return {int(step[3]): (int(step[0]), step[5] == "1", step[6] == "1") for step in steps if step[1] == "T"}


class LateHosts(unittest.TestCase):
    """A capture shows arrivals before the stack has processed them."""

    def found(self, recording):
        lines, witness, said = find(recording.text(), "--budget", "0")
        self.assertTrue(said.startswith("every line is explained") or not said, said)
        sent = {line: moment for line, moment in moments(witness)[0].items() if " O 0 " in lines[line - 1]}
        self.assertEqual(moments(witness)[1], sent, "a segment was built before it was sent")
        return takings(witness)

    def test_retransmissions_after_a_burst(self):
        """Three segments were retransmitted while eight arrivals waited; none of them acknowledges the arrivals."""
        it = Recording()
        payload = b"r" * 100
        it.call(f"send {it.opener} {3 * payload.hex()}", "ok 300")
        for at in (1, 101, 201):
            it.sent(at, 1, payload)
        burst = [it.came(1 + 100 * at, 1, b"b" * 100, after=1_100_000 if at == 0 else 2) for at in range(8)]
        for at in (1, 101, 201):
            it.sent(at, 1, payload, after=3)
        it.sent(301, 801)
        last = it.moment - 10
        self.assertEqual({line: taken for line, taken in self.found(it).items() if line in burst},
                         dict.fromkeys(burst, (last, True, False)))

    def test_a_dropped_segment(self):
        """The host dropped the first of sixteen segments. No acknowledgment was built long before it was sent."""
        it = Recording()
        dropped = it.came(1, 1, b"0123456789", after=1000)
        for at in range(1, 16):
            it.came(1 + 10 * at, 1, b"0123456789", after=5_000)
            it.sent(1, 1, after=20)
        again = it.came(1, 1, b"0123456789", after=5_000)
        it.sent(1, 161, after=20)
        kept = {line: is_kept for line, (_, is_kept, _) in self.found(it).items()}
        self.assertEqual((kept[dropped], kept[again], list(kept.values()).count(False)), (False, True, 1))


class Samples(unittest.TestCase):
    """RFC 6298, 3 lets a host measure one round trip at a time."""

    def slow_acknowledgments(self, it):
        """Four segments at once: the first is measured, and the others' acknowledgments come 0.9 s later. Then one is
        lost."""
        payload = b"x" * 500
        it.call(f"send {it.opener} {5 * payload.hex()}", "ok 2500")
        for at in range(4):
            it.sent(1 + 500 * at, 1, payload)
        it.came(1, 501, after=it.CLOCK)
        late = [it.came(1, 1001 + 500 * at, after=10 if at else 900_000) for at in range(3)]
        it.sent(2001, 1, payload)
        it.sent(2001, 1, payload, after=1_000_000)
        it.came(1, 2501, after=it.CLOCK)
        return late

    def test_one_round_trip_at_a_time(self):
        it = Recording()
        late = self.slow_acknowledgments(it)
        _, witness, said = find(it.text())
        self.assertTrue(said.startswith("every line is explained"), said)
        measured = [line for line, (_, _, is_measured) in takings(witness).items() if is_measured]
        self.assertEqual(len(measured), 2)
        self.assertFalse(set(measured) & set(late))

    def test_the_way_of_a_host(self):
        """Ten connections of the host have this problem, and one way of the host explains them all."""
        parts = [Recording(4000 + at, 10_000_000 * at, 6 + at) for at in range(10)]
        for part in parts:
            self.slow_acknowledgments(part)
        said = find(joined(parts))[2]
        self.assertRegex(said, "^every line is explained; other choices tried: 1\nhost 0 .*: --ways 0:one-sample\n$")


def joined(parts):
    """A trace of several recordings, one after the other."""
    return "".join(line + "\n" for line in Recording.HEADER + [line for part in parts for line in part.lines])


class Budget(unittest.TestCase):
    def test_it_begins_anew(self):
        """In each of twenty connections, the host ignores a reset. Each needs fewer steps than the budget, and all
        together need more."""
        parts = [Recording(4000 + at, 10_000_000 * at, 6 + at) for at in range(20)]
        for part in parts:
            part.call(f"send {part.opener} 78", "ok 1")
            part.came(1, None, flags=0x04)
            part.sent(1, 1, b"x")
        trace = joined(parts)
        said = find(trace, "--budget", "2000")[2]
        tried = re.fullmatch("every line is explained; other choices tried: ([0-9]+)\n", said)
        self.assertTrue(tried, said)
        self.assertGreater(int(tried[1]) * trace.count("\n") / 2, 2000)


class Growth(unittest.TestCase):
    def seconds(self, rounds):
        """The least processor time of three searches for a witness of a transfer."""
        case = subprocess.run([sys.executable, f"{TOP}/bench/bulk_transfer.py", str(rounds)], capture_output=True,
                              text=True, check=True).stdout
        trace = case[:case.index("witness 1\n")]
        times = []
        for _ in range(3):
            before = resource.getrusage(resource.RUSAGE_CHILDREN).ru_utime
            self.assertEqual(find(trace)[2], "")
            times.append(resource.getrusage(resource.RUSAGE_CHILDREN).ru_utime - before)
        return min(times)

    def test_twice_as_many_lines(self):
        """They take at most 2.3 times as long. A busy machine gets three attempts."""
        ratios = []
        for _ in range(3):
            ratios.append(self.seconds(5_000) / self.seconds(2_500))
            if ratios[-1] <= 2.3:
                return
        self.fail(ratios)


class Watched(Recording):
    """Such a trace of version 5, whose duties are judged with a slack in microseconds."""

    def __init__(self, slack, level="full"):
        self.HEADER = ("trace 5,skew 0,msl 120000000,grain 1000,minrto 1000000,extra 0,initial 5681,hosts 1,"
                       f"congestion {level},slack {slack}").split(",")
        super().__init__()

    def stop(self, after):
        """The recording goes on for some time, and ends with a call that changes nothing."""
        self.moment += after
        self.lines += [f"{self.moment} 99 B status 0", f"{self.moment} 99 E badsocket"]


class Strict(Watched):
    """Such a trace of version 6, whose duties are stricter."""

    def __init__(self, slack, level="recovery"):
        super().__init__(slack, level)
        self.HEADER = ["trace 6", *self.HEADER[1:], "sender reno", "growth 1"]


class Selective(Strict):
    """Such a trace in which both SYNs permit SACK."""

    def segment(self, host, ports, numbers, flags, payload):
        text = super().segment(host, ports, numbers, flags, payload)
        return f"{text[:24]}60{text[26:40]}01010402{text[40:]}" if flags & 0x02 else text


def found_case(recording, *words):
    """The case that is found for a trace with duties, and the answer to it."""
    lines, witness, _ = find(recording.text(), *words)
    first = lines[0].replace("trace", "witness")
    case = "".join(line + "\n" for line in [*lines, first, *witness])
    ran = subprocess.run([*LAB, "explain"], input=case, capture_output=True, text=True, check=False, timeout=60)
    return lines, witness, ran.stdout.splitlines()[0]


class Duties(unittest.TestCase):
    """In version 5 with a slack, a witness has to keep duties."""

    found = staticmethod(found_case)

    def test_a_late_host_keeps_what_it_receives(self):
        """A segment doesn't acknowledge what arrived 50 ms before."""
        it = Watched(100_000)
        it.call(f"send {it.opener} 78", "ok 1")
        came = it.came(1, 1, b"0123456789", after=1000)
        it.sent(1, 1, b"x", after=50_000)
        it.sent(2, 11)
        _, witness, answer = self.found(it, "--budget", "0")
        self.assertRegex(answer, "^yes")
        self.assertTrue(takings(witness)[came][1])

    def test_a_reset_answers_what_may_not_be_dropped(self):
        """A segment arrives for ports that are closed, and no line shows the reset."""
        it = Watched(1000)
        line = it.line(5, f"I 0 {it.segment(1, (80, 5000), (1, 1), 0x10, b'')}", 10)
        it.stop(100_000)
        _, witness, answer = self.found(it)
        self.assertRegex(answer, "^yes")
        self.assertIn(f"R 0 {line}", [step.split(" ", 1)[1] for step in witness])

    def retransmitted_twice(self, level):
        it = Watched(1000, level)
        it.call(f"send {it.opener} 78", "ok 1")
        for after in (10, 1_000_000, 2_000_000):
            it.sent(1, 1, b"x", after=after)
        it.came(1, 2)
        return it

    def test_each_retransmission_of_a_position_needs_an_expiry(self):
        for level in ("full", "recovery", "none"):
            it = self.retransmitted_twice(level)
            lines, _, answer = self.found(it)
            self.assertRegex(answer, "^yes", level)
            self.assertEqual(sum(line.endswith(" T 0 4000 80 rto") for line in lines), 2, level)

    def test_an_acknowledgment_answers_a_late_arrival(self):
        it = Watched(10_000)
        it.sent(1, 1)
        it.came(1, 1, b"0123456789", after=1000)
        it.sent(1, 1, after=5_000)
        it.sent(1, 11)
        self.assertRegex(self.found(it)[2], "^yes")

    def test_the_end(self):
        """If the round trip of the SYN isn't measured, the RTO may be three seconds."""
        it = Watched(1000)
        it.call(f"send {it.opener} 78", "ok 1")
        it.sent(1, 1, b"x")
        it.stop(3_000_000)
        self.assertRegex(self.found(it)[2], "^yes")

    def test_a_duty_that_no_witness_keeps(self):
        """The case ends with the step that the duty refuses, not where the trace shows it."""
        it = Watched(1000)
        it.call(f"send {it.opener} 787878", "ok 3")
        came = it.came(1, 1, b"0123456789", after=1000)
        for at in (1, 2, 3):
            it.sent(at, 1, b"x", after=100_000)
        _, witness, answer = self.found(it)
        self.assertRegex(answer, "^no [0-9]+ 0 (discarded|dropped)$")
        self.assertRegex(witness[-1], f" (T|K) 0 {came}( |$)")


class StricterDuties(unittest.TestCase):
    """In version 6, an acknowledgment answers what was processed before it was built, and what is built is sent."""

    def closed(self, slack):
        """The program has closed its socket, and the FIN is acknowledged: bytes need not be kept any more."""
        it = Strict(slack)
        it.call(f"close {it.opener}", "ok")
        it.sent(1, 1, flags=0x11)
        it.came(1, 2, after=it.CLOCK)
        return it

    def assert_answered(self, recording, pairs):
        """The first pass finds a yes, in which each of these arrivals is processed, or dropped, before the segment of
        its line is built."""
        lines, witness, answer = found_case(recording, "--budget", "0")
        self.assertRegex(answer, "^yes", lines)
        steps = [step.split(" ", 1)[1] for step in witness]
        built = [place for place, step in enumerate(steps) if step.startswith(("M ", "R "))]
        for came, sent in pairs:
            taken = next(at for at, step in enumerate(steps) if re.match(rf"[TK] 0 {came}( |$)", step))
            number = next(int(step.split()[2]) for step in steps if step.startswith(f"L {sent} "))
            self.assertLess(taken, built[number - 1], (came, sent))

    def test_bytes_that_are_not_kept(self):
        """They are acknowledged at once, later, or many times."""
        for after in (0, 300, 150_000):
            it = self.closed(200_000)
            pairs = []
            for _ in range(30):
                came = it.came(1, 2, b"0123456789", after=800_000)
                pairs.append((came, it.sent(2, 1, after=after)))
            it.stop(2_000_000)
            self.assert_answered(it, pairs)

    def test_one_acknowledgment_for_several(self):
        it = self.closed(10_000)
        came = [it.came(1 + 10 * at, 2, b"0123456789", after=100) for at in range(3)]
        sent = it.sent(2, 1, after=300)
        it.stop(2_000_000)
        self.assert_answered(it, [(line, sent) for line in came])

    def test_a_reset_that_acknowledges(self):
        it = self.closed(10_000)
        came = it.came(1, 2, b"0123456789", after=100)
        sent = it.sent(2, 1, flags=0x14, after=300)
        it.stop(2_000_000)
        self.assert_answered(it, [(came, sent)])

    def test_bytes_that_are_kept_later(self):
        """The next segment shows that they were kept, so the first one doesn't answer them."""
        it = self.closed(10_000)
        it.came(1, 2, b"0123456789", after=100)
        it.sent(2, 1, after=300)
        came = it.came(1, 2, b"0123456789", after=300_000)
        sent = it.sent(2, 11)
        it.stop(2_000_000)
        self.assert_answered(it, [(came, sent)])

    def test_an_unacceptable_segment(self):
        it = Strict(10_000)
        came = it.came(0, 1, after=1000)
        sent = it.sent(1, 1, after=300)
        it.stop(2_000_000)
        self.assert_answered(it, [(came, sent)])

    def test_an_acknowledgment_that_crosses_an_arrival(self):
        it = Strict(10_000)
        it.sent(1, 1)
        came = it.came(1, 1, b"0123456789", after=1000)
        it.sent(1, 1, after=5_000)
        sent = it.sent(1, 11)
        it.stop(2_000_000)
        self.assert_answered(it, [(came, sent)])

    def test_a_reset_that_no_line_shows(self):
        """It would have to be sent, so the segment that it answers is dropped. At the end, it may still be sent."""
        for after, expected in ((100_000, "^no [0-9]+ 0 dropped$"), (900, "^yes")):
            it = Strict(1000)
            it.line(5, f"I 0 {it.segment(1, (80, 5000), (1, 1), 0x10, b'')}", 10)
            it.stop(after)
            self.assertRegex(found_case(it)[2], expected)

    def test_bytes_that_no_line_shows(self):
        """They would have to be sent, so the FIN can't follow them. At the end, they may still be sent."""
        for after, expected in ((100_000, "^no [0-9]+ 0 old-data$"), (900, "^yes")):
            it = Strict(1000)
            it.call(f"send {it.opener} 78", "ok 1")
            it.call(f"shut {it.opener}", "ok")
            it.sent(2, 1, flags=0x11)
            it.stop(after)
            self.assertRegex(found_case(it)[2], expected)


class Probes(unittest.TestCase):
    """In version 6, what was sent last may be sent again as a probe for its loss, before its RTO."""
    PIECE = b"x" * 100

    def sent_again(self, it, piece, after):
        """Three pieces are sent, and one of them again. Two round trips take 80 ms, and the RTO is a second."""
        it.call(f"send {it.opener} {(3 * self.PIECE).hex()}", "ok 300")
        for at in range(3):
            it.sent(1 + 100 * at, 1, self.PIECE)
        it.sent(1 + 100 * piece, 1, self.PIECE, after=after)
        return it.moment

    def assert_found(self, recording, added, expected):
        lines, _, answer = found_case(recording)
        timers = [line.split() for line in lines if " T " in line]
        self.assertEqual([(int(timer[0]), timer[-1]) for timer in timers], added)
        self.assertRegex(answer, expected)

    def test_the_last_segment(self):
        it = Selective(10_000)
        moment = self.sent_again(it, 2, 90_000)
        it.came(1, 301, after=it.CLOCK)
        it.stop(2_000_000)
        self.assert_found(it, [(moment, "pto")], "^yes")

    def test_the_timer_restarts(self):
        """The RTO counts from the probe, so its expiry isn't late."""
        it = Selective(10_000)
        moment = self.sent_again(it, 2, 90_000)
        it.sent(1, 1, self.PIECE, after=1_000_000)
        it.came(1, 301, after=it.CLOCK)
        it.stop(2_000_000)
        self.assert_found(it, [(moment, "pto"), (moment + 1_000_000, "rto")], "^yes")

    def assert_lost(self, it, send):
        """A segment is lost, and so is its probe, at the RTO. The next expiry comes one RTO later, and not two."""
        moments = []
        for after in (10, 1_000_000, 1_000_000, 2_000_000):
            send(after)
            moments.append(it.moment)
        it.came(1, 2, after=it.CLOCK)
        it.stop(1_000_000)
        self.assert_found(it, list(zip(moments[1:], ("pto", "rto", "rto"))), "^yes")

    def test_a_lost_probe_of_all_that_is_in_flight(self):
        """An expiry is possible where the probe goes, too; only the next one shows that it was a probe."""
        it = Selective(10_000)
        it.call(f"send {it.opener} 78", "ok 1")
        self.assert_lost(it, lambda after: it.sent(1, 1, b"x", after=after))

    def test_a_lost_probe_by_a_fin(self):
        it = Selective(10_000)
        it.call(f"close {it.opener}", "ok")
        self.assert_lost(it, lambda after: it.sent(1, 1, flags=0x11, after=after))

    def test_new_data_as_a_probe(self):
        """It restarts the timer, so the expiry isn't late."""
        it = Selective(10_000)
        it.call(f"send {it.opener} {(2 * self.PIECE).hex()}", "ok 200")
        it.sent(1, 1, self.PIECE)
        it.sent(101, 1, self.PIECE, after=90_000)
        moment = it.moment
        it.sent(1, 1, self.PIECE, after=1_000_000)
        it.came(1, 201, after=it.CLOCK)
        it.stop(1_000_000)
        self.assert_found(it, [(moment, "pto"), (moment + 1_000_000, "rto")], "^yes")

    def test_what_is_no_probe(self):
        """It comes too early, isn't what was sent last, or the SYNs don't permit SACK."""
        for kind, piece, after in ((Selective, 2, 70_000), (Selective, 1, 90_000), (Strict, 2, 90_000)):
            it = kind(10_000)
            self.sent_again(it, piece, after)
            self.assert_found(it, [], "^no [0-9]+ 0 old-data$")


if __name__ == "__main__":
    unittest.main()
