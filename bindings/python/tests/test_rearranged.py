"""The shares of listed nodes rearranged, on every build, against tests/reference."""
from balanced import ERRORS, Plan

from .calling import CallCase, rounds
from .inputs import room, some_lanes, sometimes
from .reference import rearranged

PLAN = Plan([1, 7, 3, 6, 3])


class Rearranged(CallCase):
    def test_listed_rearranged(self):
        for random, record, plan, _ in rounds(21):
            lanes = sometimes(random, random.choice([0, 4097]), some_lanes(random))
            shares = random.randbytes(plan.message_len(min(lanes, 99)) + sometimes(random, 1, 0))
            into = room(random, plan.message_len(min(lanes, 99)))
            self.same_written(rearranged.listed_to_lanes(record, lanes, shares, len(into)), plan.listed_to_lanes, lanes, shares, into)
            self.same_written(rearranged.listed_to_nodes(record, lanes, shares, len(into)), plan.listed_to_nodes, lanes, shares, into)
        self.met(0, 7, 8)

    def test_numbers_that_no_type_holds(self):
        for huge in (-1, 2**32, 2**64, 10**30):
            with self.assertRaises(ERRORS[7]):
                PLAN.listed_to_lanes(huge, b"")
