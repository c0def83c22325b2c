"""Tests what passed a capture between the hosts and hasn't come yet, against a walk over all of it."""
import random
import time
import unittest
from types import SimpleNamespace

from tcpwit_importer.capture.segments import ACK
from tcpwit_importer.infer.arrivals import Arrivals
from tcpwit_importer.infer.held import Came, Greatest, Held
from tcpwit_importer.infer.passages import Passage
from tcpwit_importer.problem import Notes


def passage(place, start, length, acknowledged, edge, blocks=()):
    """What passed the capture."""
    return Passage(SimpleNamespace(flags=ACK, size=length, moment=place, outgoing=None), place, start, start + length,
                   acknowledged, edge, blocks)


class AgainstAWalk(unittest.TestCase):
    def setUp(self):
        self.draw = random.Random(7)

    def test_the_greatest_of_a_range(self):
        for count in range(20):
            numbers = [self.draw.randrange(10) for _ in range(count)]
            row = Greatest(list(numbers))
            for _ in range(50):
                if count and self.draw.random() < 0.5:
                    place = self.draw.randrange(count)
                    row[place] = numbers[place] = self.draw.randrange(10)
                start, stop = sorted((self.draw.randrange(count + 1), self.draw.randrange(count + 1)))
                self.assertEqual(row.within(start, stop), max(numbers[start:stop], default=0))
                above = self.draw.randrange(-1, 10)
                first = next((at for at, number in enumerate(numbers) if number > above), None)
                self.assertEqual(row.first_above(max(0, above)),
                                 first if above >= 0 else next((at for at, each in enumerate(numbers) if each), None))

    def test_what_is_held(self):
        for _ in range(200):
            others = [passage(at, self.draw.randrange(20), self.draw.randrange(4), 0, self.draw.randrange(30))
                      for at in range(15)]
            held, due, position = Held(others), {}, 0
            for place in range(30):
                if place < len(others):
                    due[place] = self.draw.randrange(40)
                    held.hold(place, due[place])
                if self.draw.random() < 0.3:
                    now = sorted(at for at, when in due.items() if when <= place)
                    self.assertEqual(held.take_due(place), now)
                    for at in now:
                        del due[at]
                position += self.draw.random() < 0.4
                having = [at for at in sorted(due) if others[at].start <= position < others[at].stop]
                self.assertEqual(held.with_position(position), having[0] if having else None)
                edge = self.draw.randrange(30)
                wider = [at for at in sorted(due) if others[at].edge > edge]
                self.assertEqual(held.with_edge_above(edge), wider[0] if wider else None)
                if self.draw.random() < 0.1:
                    ranges = [(start, start + self.draw.randrange(1, 4)) for start in self.draw.sample(range(20), 2)]
                    now = [at for at in sorted(due) if others[at].length and any(
                        others[at].start < stop and start < others[at].stop for start, stop in ranges)]
                    self.assertEqual(held.take_within(ranges), now)
                    for at in now:
                        del due[at]
                if due and self.draw.random() < 0.3:
                    at = self.draw.choice(sorted(due))
                    held.take(at)
                    del due[at]


    def test_what_came(self):
        for _ in range(200):
            came, known = Came(), set()
            for _ in range(20):
                start = self.draw.randrange(40)
                stop = start + self.draw.randrange(1, 6)
                came.add(start, stop)
                known.update(range(start, stop))
                low, high = sorted((self.draw.randrange(-5, 50), self.draw.randrange(-5, 50)))
                found = came.missing(low, high)
                self.assertEqual([at for start, stop in found for at in range(start, stop)],
                                 [at for at in range(low, high) if at not in known])
                # Between two ranges, something came.
                self.assertTrue(all(one[1] < two[0] for one, two in zip(found, found[1:])))


class Hostile(unittest.TestCase):
    """Captures that no host would make: much is held, and each segment needs more than there is."""

    def seconds(self, count, **others):
        """The time for so many arrivals that aren't acknowledged, and so many segments beyond the window."""
        window, first, blocks = others.get("window", 0), others.get("first", 10), others.get("blocks", lambda at: ())
        arrivals = [passage(0, 1, 0, 1, first)]
        arrivals += [passage(at, at, 1, 1, window(at) if window else 5) for at in range(1, count)]
        sent = [SimpleNamespace(passage=passage(count + at, 10 + 10 * at, 10, 0, 0, blocks(at)), before=count + at,
                                packet=SimpleNamespace(moment=count + at)) for at in range(count)]
        begun = time.process_time()
        self.assertEqual(len(Arrivals(sent, arrivals, Notes()).packets()), 2 * count)
        return time.process_time() - begun

    def test_times(self):
        for others in ({}, {"first": 1 << 40}, {"first": 1 << 40, "window": lambda at: 10 * at},
                       {"blocks": lambda at: ((0, 1 << 40),) * 4}, {"blocks": lambda at: ((3 * at, 3 * at + 1),)},
                       {"blocks": lambda at: ((1 << 40 - at % 9, 1 << 41), (at, 1))}):
            self.assertLess(self.seconds(4000, **others), 5 + 20 * self.seconds(1000, **others), others)
            self.assertLess(self.seconds(8000, **others), 7.5, others)


if __name__ == "__main__":
    unittest.main()
