"""What the tests of calls share: a call on every build, held to what the reference says."""
import unittest
from random import Random

from balanced import Plan

from .builds import outcome
from .inputs import plan_of, some_lanes, some_record, symbols
from .reference import code

ROUNDS = 400


def rounds(seed, count=ROUNDS, **choice):
    """Random records with their plans, ours and the reference's."""
    random = Random(seed)
    for _ in range(count):
        record = some_record(random, **choice)
        yield random, record, Plan(record), plan_of(record)


def block(random, record, plan, known):
    """A number of lanes, and the shares of a random message."""
    lanes = some_lanes(random)
    return lanes, code.encode(record, lanes, symbols(random, known, plan.k * lanes), plan.shares_len(lanes))[1]


class CallCase(unittest.TestCase):
    def setUp(self):
        self.numbers = set()

    def met(self, *numbers):
        """The inputs have met these numbers, 0 for accepted calls."""
        self.assertEqual(self.numbers, set(numbers))

    def outcome(self, function, *given):
        number, result, lent = outcome(function, *given)
        self.numbers.add(number)
        return number, result, lent

    def same(self, expected, function, *given):
        """A call that answers and writes nothing."""
        self.assertEqual(self.outcome(function, *given)[:2], expected, given)

    def same_written(self, expected, function, *given):
        """A call that writes to its last buffer: there, which it gives back, and where none is lent to a new one."""
        number, result, lent = self.outcome(function, *given)
        self.assertEqual((number, None if number else bytes(result)), expected, given)
        if not number:
            self.assertIs(result, lent[-1])
            self.assertEqual(outcome(function, *given[:-1])[:2], (0, result))

    def same_changed(self, expected, function, *given):
        """A call that changes its last buffer and gives a count."""
        number, count, lent = self.outcome(function, *given)
        self.assertEqual((number, None if number else (count, bytes(lent[-1]))), expected, given)
