"""Tests of the scenario language, the wire, the scripted peer, storms, profiles, verdicts, and a stack's answers."""
import json
import os
import re
import unittest
from types import SimpleNamespace
from unittest import mock

from tcpwit_stacks import (baseline, host, peer, profiles, scenarios, segments, simulation, storms, table, texts,
                           variants, wire)
from tcpwit_stacks.judge import Judge
from tcpwit_stacks.limits import Broken
from tcpwit_stacks.outcomes import LEVELS, Outcome

TOP = os.path.dirname(os.path.dirname(os.path.abspath(__file__)))
HEAD = "show  a\nby    b\n"


def wire_of(text):
    return wire.Wire(scenarios.read("x", HEAD + text))


def segment(flags, seq=100, payload=b""):
    return segments.Segment(4000, 80, seq, 0, flags, 1000, b"", payload)


class Language(unittest.TestCase):
    def fault(self, text, told):
        with self.assertRaises(scenarios.Fault) as caught:
            scenarios.read("x", HEAD + text)
        self.assertIn(told, str(caught.exception))

    def test_a_scenario(self):
        read = scenarios.read("x", HEAD + """\
seed 7
delay 0.5
lose 0 byte 9000 1 2   # twice
cut 1 2.5
window 1 3000
iss 0 4294967295
thread 2 host 0
  open 4000 80 as c
  send c 10 by 5 each 0.1
  await c lasted 180 is timeout refused
""")
        self.assertEqual((read.seed, read.delay, read.cuts), (7, 500000, [(1000000, 2500000)]))
        self.assertEqual(read.settings, {(1, "window"): 3000, (0, "iss"): 2**32 - 1})
        self.assertEqual((read.rules[0].kind, read.rules[0].byte, read.rules[0].picks), ("byte", 9000, (1, 2)))
        steps = read.threads[0].steps
        self.assertEqual((steps[0].word, steps[0].args, steps[0].options), ("open", ["4000", "80"], {"as": "c"}))
        self.assertEqual(steps[1].options, {"by": 5, "each": 100000})
        self.assertEqual((steps[2].options, steps[2].expected), ({"lasted": 180000000}, ("timeout", "refused")))

    def test_faults_name_the_line(self):
        self.fault("lose 2 syn 1\n", "x, line 3: 2 isn't a host")
        self.fault("lose 0 sin 1\n", "sin isn't a kind")
        self.fault("lose 0 syn\n", "the segment numbers are missing")
        self.fault("double 0 syn 1\n", "the time is missing")
        self.fault("delay fast\n", "fast isn't a time")
        self.fault("thread 1 host 0\n  halt c\n", "line 4: halt isn't a call")
        self.fault("thread 1 host 0\n  open 1 2\n", "a name is missing")
        self.fault("thread 1 host 0\n  send c\n", "a word is missing")
        self.fault("  send c 5\n", "a step is outside")
        self.fault("peer 80 to 4000\n  put XY\n", "XY aren't flags")
        self.fault("peer 80 to 4000\n  expect pong\n", "pong isn't a kind")
        self.fault("whatever\n", "whatever is not understood")

    def test_values_that_have_no_room_are_faults(self):
        for step, told in (("put A seq 5x", "5x isn't a sequence"), ("put A ack foo", "foo isn't a sequence"),
                           ("put A win 65536", "65536 is above 65535"), ("put S mss 99999", "99999 is above 65535"),
                           ("put A fill 256", "256 is above 255"), ("put A len x", "x isn't a number"),
                           ("put A times -1", "-1 isn't a number"), ("put A raw 0101", "0101 is not 4 to 40 bytes"),
                           ("put A raw " + "01" * 44, "is not 4 to 40"), ("put A each x", "x isn't a time"),
                           ("expect ack seq 1+", "1+ isn't a sequence"), ("never ack within soon", "soon isn't a time"),
                           ("window 65536", "65536 is above"), ("put A len 5 to here", "here isn't a sequence"),
                           ("put A to edge", "len is needed"), ("put A len 0 to edge", "len is needed"),
                           ("put A len 5 seq nxt to edge", "seq and times aren't understood"),
                           ("put A len 5 to edge times 2", "seq and times aren't understood"),
                           ("put A sack irs+1", "irs+1 isn't one to four blocks"),
                           ("put A sack 1..2,3..4,5..6,7..8,9..10", "isn't one to four blocks"),
                           ("put A sack irs..here", "here isn't a sequence"),
                           ("put A sack 1..2 raw 01010101", "raw has all options, so sack isn't understood")):
            self.fault(f"peer 80 to 4000\n  {step}\n", told)
        for step, told in (("send c many", "many isn't a number"), ("recv c all", "all isn't a number"),
                           ("open 4000 70000 as c", "70000 is above 65535"),
                           ("listen \u0663 as d", "\u0663 isn't a number")):
            self.fault(f"thread 1 host 0\n  {step}\n", told)
        self.fault("peer 80 to 65536\n", "65536 is above 65535")
        self.fault("mss 0 65536\n", "65536 is above 65535")
        self.fault("iss 0 4294967296\n", "4294967296 is above 4294967295")

    def test_show_and_by_are_wanted(self):
        with self.assertRaises(scenarios.Fault):
            scenarios.read("x", "show a\n")

    def test_the_page_has_the_number_of_scenarios(self):
        names = [name for name in os.listdir(os.path.join(TOP, "scenarios")) if name.endswith(".scenario")]
        with open(os.path.join(TOP, "README.md")) as file:
            page = file.read()
        counts = {begin: int(count) for begin, count in re.findall(r"^\| `([a-z]+-)` \| (\d+) \|", page, re.M)}
        self.assertEqual(counts, {begin: sum(name.startswith(begin) for name in names) for begin in counts})
        self.assertEqual(sum(counts.values()), len(names))
        self.assertIn(f"through {len(names)} scenarios", page)

    def test_every_scenario_can_be_read(self):
        folder = os.path.join(TOP, "scenarios")
        names = [name for name in os.listdir(folder) if name.endswith(".scenario")]
        self.assertGreaterEqual(len(names), 60)
        for name in names:
            with open(os.path.join(folder, name)) as file:
                read = scenarios.read(name, file.read())
            self.assertTrue(read.show.endswith("."), name)
            self.assertRegex(read.by, r"^RFC \d+, ", name)
            self.assertTrue(read.threads or read.script, name)
            self.assertEqual(bool(read.peer),
                             any(not t.host for t in read.threads) and all(t.host == 0 for t in read.threads)
                             and bool(read.script), name)


class TheWire(unittest.TestCase):
    def test_by_kind_and_count(self):
        w = wire_of("lose 0 fin 2\n")
        fin = segment(segments.FIN | segments.ACK)
        self.assertEqual([w.delays(0, fin, 0) for _ in range(3)], [[20000], [], [20000]])
        self.assertEqual(w.delays(1, fin, 0), [20000])

    def test_by_byte(self):
        w = wire_of("lose 0 byte 6 1\n")
        w.delays(0, segment(segments.SYN, 0xffffffff), 0)
        self.assertEqual(w.delays(0, segment(segments.ACK, 0, b"abcde"), 0), [20000])
        self.assertEqual(w.delays(0, segment(segments.ACK, 5, b"f"), 0), [])
        self.assertEqual(w.delays(0, segment(segments.ACK, 5, b"f"), 0), [20000])

    def test_doubling_holding_and_cuts(self):
        w = wire_of("double 0 data all after 0.01\nhold 0 ack 1 for 0.5\ncut 5 6\n")
        self.assertEqual(w.delays(0, segment(segments.ACK, 1, b"x"), 0), [20000, 30000])
        self.assertEqual(w.delays(0, segment(segments.ACK), 0), [520000])
        self.assertEqual(w.delays(0, segment(segments.ACK), 5500000), [])

    def test_chance_goes_by_the_seed(self):
        def lost(seed):
            w = wire_of(f"seed {seed}\nlose 0 any 30%\n")
            return [not w.delays(0, segment(segments.ACK), 0) for _ in range(50)]
        self.assertEqual(lost(1), lost(1))
        self.assertNotEqual(lost(1), lost(2))


class Segments(unittest.TestCase):
    def test_there_and_back(self):
        made = segments.Segment(80, 4000, 2**32 - 1, 5, segments.SYN | segments.ACK, 300,
                                bytes([2, 4, 2, 24, 1, 3, 3, 7]), b"")
        read = segments.read(segments.write(made))
        self.assertEqual(read, made)
        self.assertEqual((read.kind(), read.length(), read.shift()), ("syn-ack", 1, 7))

    def test_neighbors_in_a_stream_differ(self):
        text = segments.stream(0, 3000, 0)
        self.assertEqual(text[500:700], segments.stream(500, 200, 0))
        self.assertNotEqual(text[:100], segments.stream(0, 100, 1))


    def test_a_shift_that_is_cut_off_is_none(self):
        for options, shift in ((bytes([3, 3, 15, 0]), 14), (bytes([1, 1, 3, 3]), None), (bytes([3, 2, 0, 0]), None)):
            self.assertEqual(segments.Segment(80, 4000, 0, 0, segments.SYN, 0, options, b"").shift(), shift)


class Script:
    """A scripted peer whose clock the test moves."""

    def __init__(self, steps, whole=""):
        script = "".join(f"  {step}\n" for step in steps)
        self.scenario = scenarios.read("x", f"{HEAD}{whole}thread 1 host 0\n  wait 1\npeer 80 to 4000\n{script}")
        self.now, self.sent, self.blamed = 0, [], []
        self.peer = peer.Peer(self)
        self.peer.start()

    def at(self, moment, deed, *what):
        """What the peer has the run do later: segments are kept."""
        if deed == "come":
            self.sent.append(segments.read(bytes.fromhex(what[1])))

    def blame(self, thread, step, text):
        self.blamed.append(text)

    def take(self, flags, ack=0, window=0, options=b""):
        """The stack's segment arrives."""
        self.peer.take(segments.Segment(4000, 80, 100, ack, flags, window, options, b""))

    def pass_time(self):
        """The steps of the next second; the numbers and lengths of the segments that they send."""
        before = len(self.sent)
        for self.now in range(self.now + 500, self.now + 1_000_000, 500):
            self.peer.go_on()
        return [(segment.seq, segment.length()) for segment in self.sent[before:]]


class TheScript(unittest.TestCase):
    SHIFT = bytes([1, 3, 3, 3])

    def test_its_first_number_can_be_set(self):
        self.assertEqual(Script(["put S", "put A len 5"]).pass_time(), [(4_000_000_000, 1), (4_000_000_001, 5)])
        self.assertEqual(Script(["put S", "put A len 5", "put A len 5 seq iss+1"], "iss 1 4294967295\n").pass_time(),
                         [(2**32 - 1, 1), (0, 5), (0, 5)])

    def edge(self, stack, script):
        """The script's edge after SYNs with these options, a window of 300 in the stack's SYN, and one of 200."""
        made = Script([f"put SA raw {script}"])
        made.take(segments.SYN, window=300, options=stack)
        made.pass_time()
        made.take(segments.ACK, 4_000_000_001, 200)
        return made.peer.edge - 4_000_000_001

    def test_windows_are_scaled_if_both_syns_have_a_shift(self):
        self.assertEqual(self.edge(self.SHIFT, "01030307"), 200 << 3)
        self.assertEqual(self.edge(self.SHIFT, "01010101"), 200)
        self.assertEqual(self.edge(b"", "01030307"), 200)

    def test_the_window_of_a_syn_is_not_scaled(self):
        made = Script(["put S raw 01030307"])
        made.pass_time()
        made.take(segments.SYN | segments.ACK, 4_000_000_001, 300, self.SHIFT)
        self.assertEqual(made.peer.edge, 4_000_000_301)

    def test_it_sends_sack_blocks(self):
        made = Script(["put S sack 5..iss+6", "put A sack nxt-1..rcv+4294967295,7..8"])
        made.pass_time()
        self.assertEqual([segment.options.hex() for segment in made.sent],
                         ["020402180101050a00000005ee6b2806", "01010512ee6b2800ffffffff0000000700000008"])

    def test_it_sends_up_to_a_number(self):
        made = Script(["put S", "wait 1", "put A len 500 to edge", "put A len 500 to edge", "put A len 500 to edge-10",
                       "put A len 7"], "iss 1 4294967000\n")
        made.pass_time()
        made.take(segments.ACK, 4_294_967_001, 1200)
        self.assertEqual(made.pass_time() + made.pass_time(),
                         [(4_294_967_001, 500), (205, 500), (705, 200), (905, 7)])

    def test_it_sends_nothing_up_to_an_unknown_number(self):
        made = Script(["put S", "put A len 500 to edge+5", "put A len 500 to iss+8"])
        self.assertEqual((made.pass_time(), made.blamed),
                         ([(4_000_000_000, 1), (4_000_000_001, 7)], ["edge+5 isn't known yet"]))


class Again(unittest.TestCase):
    def test_what_was_sent_before(self):
        sent = wire.Sent()
        syn, fin = segments.SYN, segments.FIN | segments.ACK
        for made, again in ((segment(syn, 2**32 - 1), False), (segment(syn, 2**32 - 1), True),
                            (segment(segments.ACK, 0), False), (segment(segments.ACK, 0, b"abc"), False),
                            (segment(segments.ACK, 0, b"ab"), True), (segment(segments.ACK, 2, b"cd"), False),
                            (segment(segments.RST, 0, b"abc"), False), (segment(fin, 4), False),
                            (segment(fin, 4), True), (segment(syn, 2**31 + 9), False), (segment(syn, 2**31 + 9), True)):
            self.assertEqual(sent.is_again(0, made), again, made)
        self.assertFalse(sent.is_again(1, segment(syn, 2**31 + 9)))


class Variants(unittest.TestCase):
    TEXT = HEAD + "seed 7\ndelay 0.5\n"

    def test_a_variant(self):
        scenario = scenarios.read("x", self.TEXT)
        made = variants.variant(scenario, "+delay-0.13+loss-5+seed-3")
        self.assertEqual((made.name, made.delay, made.loss, made.seed), ("x+delay-0.13+loss-5+seed-3", 130000, 0.05, 3))
        self.assertEqual((scenario.name, scenario.delay, scenario.loss, scenario.seed), ("x", 500000, 0, 7))
        for base, suffix in (("a", "+seed-2"), ("./b+c/a", ""), ("./b+c/a.scenario", "+loss-5+seed-2"), ("a", ""),
                             ("./b+c.scenario", "+seed-2"), ("a", "+sed-2")):
            self.assertEqual(variants.split(base + suffix), (base, suffix))

    def test_what_is_fixed_is_not_varied(self):
        scenario = scenarios.read("x", self.TEXT + "fixed delay loss\n")
        self.assertEqual([each for each in variants.USUAL if variants.is_fit(scenario, each)], ["+seed-2"])
        with self.assertRaisesRegex(scenarios.Fault, "x[+]loss-5: the scenario has a line `fixed` with loss"):
            variants.variant(scenario, "+loss-5")
        for line in ("fixed", "fixed window"):
            with self.assertRaisesRegex(scenarios.Fault, "x, line 5: fixed delay|loss|seed"):
                scenarios.read("x", self.TEXT + line)

    def test_losses_spare_resets_and_depend_on_the_seed(self):
        def lost(suffix, flags):
            made = wire.Wire(variants.variant(scenarios.read("x", self.TEXT), suffix))
            return [at for at in range(200) if not made.delays(0, segment(flags), 0)]
        self.assertEqual((len(lost("+loss-100", segments.ACK)), lost("+loss-100", segments.RST)), (200, []))
        self.assertTrue(5 < len(lost("+loss-10", segments.ACK)) < 40)
        self.assertEqual(lost("+loss-10", segments.ACK), lost("+loss-10", segments.ACK))
        self.assertNotEqual(lost("+loss-10", segments.ACK), lost("+loss-10+seed-8", segments.ACK))
        self.assertEqual(lost("+seed-8", segments.ACK), [])


class TheEnd(unittest.TestCase):
    """The call that ends a recording."""
    LINES = ["B status 0", "E badsocket"]

    def lines(self, steps, whole="", events=1000):
        """The event lines of a run of this thread with an adapter that sends nothing."""
        watch = SimpleNamespace(left=lambda where: None, limits=SimpleNamespace(events=events))
        run = simulation.Run(scenarios.read("x", f"{HEAD}{whole}thread 1 host 0\n{steps}"), ["true"], watch)
        with mock.patch.object(simulation, "Host", Silent):
            run.run()
        return run.lines

    def test_it_shows_how_long_the_run_lasted(self):
        """The run ends `linger` after the last step, or at `until` if a call still waits."""
        step = "  wait 3\n  listen 80 as door\n"
        for steps, whole, moment in ((step, "", 5_001_000), (step, "linger 10\n", 13_001_000),
                                     (step, "until 4\n", 4_000_000),
                                     ("  open 4000 80 as c\n  await c\n", "", 300_000_000)):
            self.assertEqual(self.lines(steps, whole)[-2:],
                             [f"{moment} {simulation.LAST_THREAD} {line}" for line in self.LINES])

    def test_its_thread_and_socket_are_no_others(self):
        lines = self.lines("  open 4000 80 as c\n")
        self.assertEqual([line for line in lines[:-2] if f" {simulation.LAST_THREAD} " in line or " 0" == line[-2:]],
                         [])
        self.assertNotIn(simulation.LAST_THREAD, range(simulation.TIMER_THREAD + 2))

    def test_a_number_of_the_stack_may_be_used_again(self):
        lines = self.lines("  open 4000 80 as c\n  close c\n  open 4001 80 as d\n  close d\n")
        self.assertEqual([line.split(" ", 2)[2] for line in lines[1:-2:2]], ["E ok 2", "E ok", "E ok 3", "E ok"])
        self.assertEqual(lines[6].split(" ", 2)[2], "B close 3")

    def test_a_closed_socket_repeats_no_fault(self):
        steps = "  open 4000 80 as c\n  recv c 5 is reset\n  shut c is reset\n  close c\n  send c 5 is badsocket\n"
        self.assertEqual([line.split(" ", 2)[2] for line in self.lines(steps)[3:-2:2]],
                         ["E reset", "E reset", "E ok", "E badsocket"])

    def test_a_run_that_is_ended_early_lasts_until_then(self):
        self.assertEqual(self.lines("  wait 3\n  wait 3\n  wait 3\n", "", 2)[-2:],
                         [f"3001000 {simulation.LAST_THREAD} {line}" for line in self.LINES])


class Silent:
    """A stack that answers each call at once, sends nothing, and needs no timer."""
    next = None

    def __init__(self, number, *settings):
        self.number = number

    def hello(self, seed, options):
        pass

    def end(self):
        pass

    def ask(self, call, command):
        return {"open": "ok 0", "await": "again", "recv": "reset"}.get(call, "ok"), []


class Storms(unittest.TestCase):
    def lines(self, *kinds):
        made = {"ack": segment(segments.ACK), "data": segment(segments.ACK, payload=b"x"),
                "fin": segment(segments.ACK | segments.FIN)}
        return [f"5 90 O 0 {segments.write(made[kind]).hex()}" if kind in made else kind for kind in kinds]

    def test_where_a_storm_begins(self):
        begin = self.lines("ack", "data", "5 1 B status 5", "fin")
        for more in (self.lines("ack") * 300, self.lines("ack") * 150 + self.lines("data") + self.lines("ack") * 150):
            self.assertEqual(storms.storm(begin + more), 4)

    def test_what_is_no_storm(self):
        for lines in ([], self.lines("ack") * 50, self.lines("data", "ack") * 300,
                      self.lines("ack") * 300 + self.lines("data") * 300):
            self.assertIsNone(storms.storm(lines))


class Profiles(unittest.TestCase):
    def test_a_profile(self):
        values = profiles.profile("# x\nname  A stack\nmsl 30000000 # half\n")
        self.assertEqual((values["name"], values["msl"], values["grain"]), ("A stack", "30000000", "1000"))
        self.assertRaises(ValueError, profiles.profile, "mls 5")

    def test_the_header(self):
        values = profiles.profile("sender cubic\ngrowth any\n")
        for half, hosts in ((False, "hosts 2"), (True, "hosts 1")):
            for word, version, last in (("full", 5, []), ("recovery", 6, ["sender cubic", "growth any"]),
                                        ("none", 6, ["sender cubic", "growth any"])):
                self.assertEqual(profiles.header_of(values, half, word),
                                 [f"trace {version}", "skew 0", "msl 120000000", "grain 1000", "minrto 0",
                                  "extra 65535", "initial 5681", hosts, f"congestion {word}", "slack 20000", *last])
        self.assertEqual(profiles.header_of(profiles.USUAL, False, "none")[-2:], ["sender reno", "growth 1"])
        self.assertEqual(profiles.trace_of(profiles.USUAL, True, ["1 1 B status 5"], "full").split("\n")[-3:],
                         ["slack 20000", "1 1 B status 5", ""])

    def test_the_slack_is_the_profiles(self):
        for text in ("0", "250000", "any"):
            self.assertEqual(profiles.header_of(profiles.profile(f"slack {text}\n"), False, "full")[-1],
                             f"slack {text}")
        for text in ("none", "", "-1", "1.5", "any 5"):
            with self.assertRaisesRegex(ValueError, "is neither a number nor any"):
                profiles.profile(f"slack {text}\n")


class Verdicts(unittest.TestCase):
    def outcome(self, answer, level="", **values):
        return Outcome(SimpleNamespace(keeps=True, name="x"), answer, level, **values)

    def test_each_verdict_with_and_without_but(self):
        for answer, level, verdict, shown in (("yes 5 3", "full", "yes", "yes 5 3"),
                                              ("yes 5 3", "recovery", "yes at recovery", "yes at recovery 5 3"),
                                              ("yes 5 3", "none", "yes at none", "yes at none 5 3"),
                                              ("no 9 0 size", "", "no", "no 9 0 size")):
            plain, wrong = self.outcome(answer, level), self.outcome(answer, level, waiting=["thread 1: recv c eof"])
            self.assertEqual((plain.word(), plain.shown()), (verdict, shown))
            self.assertEqual((wrong.word(), wrong.shown()), (f"{verdict}, but", f"{shown}, but"))

    def test_other_words_are_shown_as_they_are(self):
        for answer in ("broken host 0 hangs", "skipped iss at host 0", "recorded", "bad trace 7 0 9 header"):
            self.assertEqual(self.outcome(answer, unexpected=["run: x"]).shown(), answer)
            self.assertEqual(self.outcome(answer).word(), answer.split()[0])

    def test_no_outcome_with_no_is_good(self):
        for answer, level, good in (("yes 5 3", "full", (True, True, True)),
                                    ("yes 5 3", "recovery", (False, True, True)),
                                    ("yes 5 3", "none", (False, False, True)),
                                    ("no 9 0 size", "", (False, False, False)),
                                    ("broken the run was stopped", "full", (False, False, False))):
            outcome = self.outcome(answer, level)
            self.assertEqual(tuple(outcome.is_good(least) for least in LEVELS), good)
            outcome.missing = 3
            self.assertFalse(any(outcome.is_good(least) for least in LEVELS))

    def test_missing_bytes_are_no_good(self):
        outcome = self.outcome("yes 1 1", "full", missing=3)
        self.assertEqual((outcome.is_good(), outcome.word()), (False, "yes, but"))
        outcome.scenario.keeps = False
        self.assertEqual((outcome.is_good(), outcome.word()), (True, "yes"))

    def test_a_line_of_the_baseline_lacks_numbers(self):
        for outcome, line in ((self.outcome("yes 5 3", "full"), "x: yes"),
                              (self.outcome("yes 5 3", "none", refused="no 9 0 size"), "x: yes at none [size]"),
                              (self.outcome("no 9 0 size", missing=7, waiting=["a"],
                                            unexpected=["thread 1, line 2: b"]),
                               "x: no [size], but missing 7 open 1 (b)"),
                              (self.outcome("yes 5 3", "full", unexpected=["thread 1 waits, line 2"]),
                               "x: yes, but (thread 1 waits)"),
                              (self.outcome("skipped iss at host 0"), "x: skipped")):
            self.assertEqual(baseline.brief(outcome), line)


class StandIn(Judge):
    """Programs that answer yes from one level on: `find` prints the trace unchanged, and `check` reads the level in it.
    Commands in `slow` reach a limit."""

    def __init__(self, strictest, fault="no 9 0 congestion", slow=()):
        super().__init__(["the", "check"], ["the", "lab"])
        self.yes, self.fault, self.slow = LEVELS[LEVELS.index(strictest):] if strictest else (), fault, slow
        self.rule = "old-data"

    def outcome(self, profile="", lines=()):
        """The outcome and cases of a run with these lines."""
        outcome, run = Outcome(SimpleNamespace(keeps=True, name="x")), SimpleNamespace(peer=False, lines=list(lines))
        return outcome, self.judge(outcome, run, profiles.profile(profile))

    def call(self, program, words, text):
        """Answers as `tcpwit` or `tcpwit_lab` with these arguments, and fails for any others."""
        if words[0] in self.slow:
            raise Broken("it took more than 60 s")
        level = re.search(r"congestion (\w+)", text)[1]
        if words[0] == "find":
            return text, 0
        answers = {("check",): "yes 5 3" if level in self.yes else self.fault,
                   ("explain", "--simulated", "--json"): json.dumps({"said": [self.fault, "what is compared", ""]}),
                   ("remark", "--json"): json.dumps({"said": [f"line 7: of {level}", "at the end: x"]})}
        if words[:2] == ["judge", "--json"]:
            return self.judged(text, words[-1] if "--case" in words else None), 0
        return answers[tuple(words)], 0

    def judged(self, text, path=None):
        """What `judge --json` prints, and the case that it writes."""
        level = self.yes[0] if self.yes else LEVELS[-1]
        if path:
            with open(path, "w") as file:
                file.write(re.sub(r"congestion \w+", f"congestion {level}", text))
        laxer = LEVELS[LEVELS.index(re.search(r"congestion (\w+)", text)[1]):LEVELS.index(level) + 1]
        levels = [{"level": each} if each in self.yes else {"level": each, "rule": self.rule, "sentence": f"of {each}"}
                  for each in laxer]
        return json.dumps({"answer": "yes" if self.yes else "no", "level": level, "levels": levels})


class TheStrictestLevel(unittest.TestCase):
    def test_the_first_level_with_a_yes(self):
        for level, answer, refused in (("full", "yes 5 3", ""), ("recovery", "yes 5 3", "no 9 0 congestion"),
                                       ("none", "yes 5 3", "no 9 0 congestion"), ("", "no 9 0 congestion", "")):
            outcome, cases = StandIn(level).outcome()
            self.assertEqual((outcome.level, outcome.answer, outcome.refused), (level, answer, refused))
            self.assertEqual(list(cases), list(dict.fromkeys(each for each in ("full", level) if each)))
            self.assertEqual({each: re.search(r"congestion (\w+)", cases[each])[1] for each in cases},
                             {each: each for each in cases})
            self.assertEqual({each: cases[each].split("\n")[0] for each in cases},
                             {each: "trace 5" if each == "full" else "trace 6" for each in cases})
            self.assertEqual(outcome.remarks, [f"line 7: of {level or 'full'}", "at the end: x"])
            self.assertEqual(outcome.why, [] if level == "full" else ["what is compared"])
            self.assertEqual(outcome.laxer, {"none": ["recovery: of recovery"],
                                             "": ["recovery: of recovery", "none: of none"]}.get(level, []))

    def test_the_profile_names_the_first_level(self):
        for first, level, kept, refused in (("recovery", "recovery", ["recovery"], ""),
                                            ("recovery", "none", ["recovery", "none"], "no 9 0 old-data"),
                                            ("recovery", "", ["recovery"], ""), ("none", "none", ["none"], ""),
                                            ("none", "", ["none"], "")):
            outcome, cases = StandIn(level, "no 9 0 old-data").outcome(f"level {first}\n")
            self.assertEqual((outcome.level, outcome.first, list(cases), outcome.refused),
                             (level, first, kept, refused))
            self.assertEqual({case.split("\n")[0] for case in cases.values()}, {"trace 6"})
            self.assertEqual(outcome.rule(), "" if level == first else "old-data")
            if refused:
                self.assertIn("recovery: no 9 0 old-data", table.details(outcome))
                self.assertEqual(baseline.failure(outcome, first, None), f"yes at none 5 3 ({first}: {refused})")

    def test_a_probe_needs_a_laxer_level(self):
        line = "1000 94 T 0 4000 80 pto"
        with self.assertRaisesRegex(Broken, "reported the timer pto, so its profile needs `level recovery`"):
            StandIn("full").outcome(lines=[line])
        self.assertIn(line, StandIn("recovery").outcome("level recovery\n", [line])[1]["recovery"])

    def test_a_laxer_level_that_refuses_the_same(self):
        judge = StandIn("none")
        judge.rule = "congestion"
        self.assertEqual(judge.outcome()[0].laxer, [])

    def test_a_fault_is_judged_once(self):
        outcome, cases = StandIn("none", "bad trace 7 0 9 header").outcome()
        self.assertEqual((outcome.level, list(cases), outcome.remarks), ("", ["full"], []))

    def test_a_limit_that_is_reached_after_the_verdict(self):
        """The verdict stays, and the row says what wasn't finished."""
        for slow in ("remark", "explain"):
            outcome, _ = StandIn("recovery", slow=(slow,)).outcome()
            self.assertEqual((outcome.word(), outcome.is_good("recovery")), ("yes at recovery", True))
            self.assertIn("run: it took more than 60 s; the ", " ".join(table.details(outcome)))
        outcome, _ = StandIn("full", slow=("remark",)).outcome()
        self.assertEqual(table.details(outcome), ["run: it took more than 60 s; the remarks weren't finished"])
        self.assertEqual([bool(baseline.failure(outcome, "full", None, fails)) for fails in (False, True)],
                         [False, True])
        outcome, _ = StandIn("recovery", slow=("judge",)).outcome()
        self.assertEqual((outcome.word(), outcome.remarks), ("no, but", ["line 7: of full", "at the end: x"]))
        self.assertIn("run: it took more than 60 s; the levels after full weren't finished", table.details(outcome))

    def test_programs_that_disagree(self):
        with mock.patch.object(StandIn, "answer", lambda self, case: "no 9 0 size"):
            with self.assertRaisesRegex(Broken, "at none, tcpwit_lab judges yes, but tcpwit answers no 9 0 size"):
                StandIn("none").outcome()

    def test_programs_that_are_too_old(self):
        self.assertEqual(StandIn("none").unfit(), "")
        self.assertEqual(StandIn("", "bad trace 1 0 7 header").unfit(), "the check")
        with mock.patch.object(StandIn, "call", lambda *words: ("bad trace 1 0 7 header", 1)):
            self.assertEqual(StandIn("none").unfit(), "the lab")
        usual = StandIn.call
        for old in ("explain", "remark", "judge"):
            def call(self, program, words, text):
                return ("bad usage\n", 3) if words[0] == old else usual(self, program, words, text)
            with mock.patch.object(StandIn, "call", call):
                self.assertEqual(StandIn("none").unfit(), "the lab")


class Answers(unittest.TestCase):
    def test_what_a_call_may_be_answered(self):
        for word, answer in (("start", "ok"), ("await", "again"), ("open", "ok 0"), ("send", "ok 12"),
                             ("recv", "data 00ff"), ("recv", "eof"), ("status", "state FIN-WAIT-1"), ("close", "ok")):
            self.assertTrue(host.is_answer(word, answer), (word, answer))
        for word, answer in (("start", ""), ("start", "no"), ("await", "ok 1"), ("open", "ok"), ("send", "ok 0"),
                             ("recv", "data"), ("recv", "data 0"), ("recv", "data xy"), ("status", "ok"),
                             ("close", "fine"), ("await", "badsocket")):
            self.assertFalse(host.is_answer(word, answer), (word, answer))

    def test_what_a_stack_may_say(self):
        syn = "0fa00050000000000000000050020000" + "00000000"
        for word, rest in (("out", syn), ("expired", "80 4000 rto"), ("expired", "80 4000 pto")):
            self.assertEqual(host.fault_of(word, rest), "")
        for word, rest, cause in (("out", syn[:-1], "hex digits each"), ("out", syn[:-2], "19 bytes, fewer"),
                                  ("out", "", "0 bytes, fewer"), ("out", syn.upper().replace("F", "G"), "hex"),
                                  ("out", syn[:24] + "6" + syn[25:], "header length of 24"),
                                  ("out", syn[:24] + "4" + syn[25:], "header length of 16"),
                                  ("expired", "80 4000", "timer"), ("expired", "80 4000 RTO", "timer"),
                                  ("\x00\xff", "", "unknown line"), ("", "", "unknown line")):
            self.assertIn(cause, host.fault_of(word, rest), rest)


class Texts(unittest.TestCase):
    def test_what_cannot_be_printed_is_escaped(self):
        for text, shown in (("plain \u00e9 \u65e5", "plain \u00e9 \u65e5"), ("\x1b[2J", "\\x1b[2J"),
                            ("a\tb\nc\x7f\x9b", "a\\x09b\\x0ac\\x7f\\x9b"), (b"\xc3\xa9\xff\x00", "\u00e9\\xff\\x00"),
                            ("\udcfe", "\\xfe"), ("\u202e\ufffe", "\\u202e\\ufffe"), ("\U000e0001", "\\U000e0001")):
            self.assertEqual(texts.shown(text), shown)
        self.assertEqual(texts.shown("a\n\t\r", "\n\t"), "a\n\t\\x0d")
