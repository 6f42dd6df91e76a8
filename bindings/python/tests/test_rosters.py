"""Rosters on every build against tests/reference: random histories of events, queries and jobs."""
import unittest
from random import Random
from unittest.mock import patch

from balanced import AlreadyError, LengthError, Plan, RangeError, Roster, calls

from .builds import BUILDS
from .inputs import some_record
from .reference import roster as reference


def number_of(event, node):
    """The number that an event meets, 0 where it is accepted."""
    try:
        event(node)
        return 0
    except (RangeError, AlreadyError) as error:
        return error.number


class Rosters(unittest.TestCase):
    def test_histories(self):
        for path, build in BUILDS.items():
            with patch.dict(calls.FUNCTIONS, build):
                for seed in range(60):
                    self.history(Random(seed), path)

    def history(self, random, path):
        plan = Plan(some_record(random))
        roster, history = Roster.start(random.choice([plan, plan.record])), reference.History()
        self.assertEqual(history.start(plan.record), 0)
        for _ in range(30):
            node, returns = random.randrange(plan.n + 1), random.random() < 0.4
            expected = history.event(plan.record, node, returns)
            self.assertEqual(number_of(roster.rejoin if returns else roster.leave, node), expected, path)
            for _ in range(random.randrange(3)):
                self.assertEqual((0, roster.next_job()), history.job(plan.record, plan.k), path)
            self.assertEqual((0, roster.lowest()), history.lowest(plan.record, plan.k), path)
            self.assertEqual((roster.present(), roster.job), (history.present(plan.n), history.next_job()), path)
            if random.random() < 0.1:
                roster = Roster(plan, bytes(roster))

    def test_kept(self):
        roster = Roster.start([1, 7, 3, 6, 3])
        roster.leave(2)
        roster.next_job()
        again = Roster([1, 7, 3, 6, 3], memoryview(bytes(roster)))
        self.assertEqual(again, roster)
        self.assertEqual(again.next_job(), roster.next_job())
        again.rejoin(2)
        self.assertNotEqual(again, roster)
        self.assertEqual(len(bytes(roster)), 256)

    def test_other_bytes(self):
        for length in (0, 1, 255, 257):
            with self.assertRaises(LengthError):
                Roster([1, 7, 3, 6, 3], bytes(length))
        for kept in ("", None, 256, [0] * 256):
            with self.assertRaises(TypeError):
                Roster([1, 7, 3, 6, 3], kept)

    def test_refused_event(self):
        roster = Roster.start([1, 7, 3, 6, 3])
        roster.leave(0)
        before = bytes(roster)
        for event, error in [
            (lambda: roster.leave(0), AlreadyError), (lambda: roster.rejoin(1), AlreadyError), (lambda: roster.leave(6), RangeError),
            (lambda: roster.leave(-1), RangeError), (lambda: roster.rejoin(2**32), RangeError), (lambda: roster.leave("1"), TypeError),
        ]:
            with self.assertRaises(error):
                event()
            self.assertEqual(bytes(roster), before)

    def test_too_few(self):
        roster = Roster.start([1, 7, 3, 6, 6])
        roster.leave(5)
        self.assertEqual((roster.lowest(), roster.next_job()), (None, None))
