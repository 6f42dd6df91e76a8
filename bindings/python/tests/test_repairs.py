"""Repair by traces, on every build, against tests/reference: 1, 2 and 4 bits, missing nodes, every number."""
from random import Random

from balanced import ERRORS, Plan

from .calling import CallCase
from .inputs import plan_of, room, sometimes, symbols
from .reference import code, traces

RECORDS = [bytes([2, 15, 17, 1]), bytes([2, 3, 51, 30]), bytes([2, 3, 51, 1]), bytes([2, 7, 85, 21]), bytes([2, 7, 85, 60]),
           bytes([2, 2, 255, 120]), bytes([2, 2, 255, 127]), bytes([2, 2, 255, 150]), bytes([2, 2, 255, 239])]
NONE = [bytes([2, 11, 15, 1]), bytes([2, 3, 51, 36]), bytes([1, 7, 3, 6, 3]), bytes([3, 1, 1, 0, 2, 16, 1])]


class Repairs(CallCase):
    def gone(self, random, plan, most):
        """A target, a sender and missing nodes, sometimes with a fault."""
        nodes = random.sample(range(plan.n), 2 + random.choice([0, 0, 1, max(0, min(most, plan.n - 3))]))
        target, node, *missing = nodes
        if missing:
            missing[-1] = sometimes(random, random.choice([plan.n, target, node, missing[0]]), missing[-1])
        return sometimes(random, plan.n, target), sometimes(random, random.choice([plan.n, target]), node), missing

    def test_bits(self):
        random = Random(51)
        for _ in range(400):
            record = random.choice(RECORDS + NONE)
            plan, known = Plan(record), plan_of(record)
            target, node, missing = self.gone(random, plan, plan.n - plan.k - 16)
            lanes = sometimes(random, random.choice([0, 4097]), random.choice([1, 7, 8, 9, 64, 100]))
            share = symbols(random, known, min(lanes, 100) + sometimes(random, 1, 0))
            into = room(random, traces.packed_size(known, min(lanes, 100), missing))
            expected = traces.repair_bits(record, lanes, node, target, missing, share, len(into))
            self.same_written(expected, plan.repair_bits, lanes, node, target, missing, share, into)
        self.met(0, 7, 8, 9, 10, 17)

    def test_share(self):
        random = Random(52)
        for _ in range(250):
            record = random.choice(RECORDS + NONE)
            plan, known = Plan(record), plan_of(record)
            target, _, missing = self.gone(random, plan, plan.n - plan.k - 16)
            lanes = sometimes(random, random.choice([0, 4097]), random.choice([1, 7, 8, 9, 20]))
            size = max(0, plan.n - 1 - len(missing)) * traces.packed_size(known, min(lanes, 20), missing)
            rows, into = random.randbytes(size + sometimes(random, 1, 0)), room(random, plan.share_len(min(lanes, 20)))
            expected = traces.repair_share(record, lanes, target, missing, rows, len(into))
            self.same_written(expected, plan.repair_share, lanes, target, missing, rows, into)
        self.met(0, 7, 8, 9, 10, 17)

    def test_trips(self):
        """From what the others send of an encoding the target has its share again, as many nodes missing as may be."""
        random = Random(53)
        for record in RECORDS:
            plan = Plan(record)
            message = random.randbytes(plan.k * 11)
            shares = plan.encode(11, message)
            for many in (0, plan.repair_plan()[1], plan.n - plan.k - 16):
                target, *missing = random.sample(range(plan.n), many + 1)
                rows = b"".join(plan.repair_bits(11, j, target, missing, shares[j::plan.n])
                                for j in range(plan.n) if j != target and j not in missing)
                self.assertEqual(plan.repair_share(11, target, missing, rows), shares[target::plan.n])

    def test_plan(self):
        for record in RECORDS + NONE:
            for missing in (0, 1, 7, 8, 60, 119, 120, 254, 255, 256, 2**32 - 1):
                self.same(traces.repair_plan(record, missing), Plan(record).repair_plan, missing)
        for huge in (-1, 2**32, 10**30):
            with self.assertRaises(ERRORS[17]):
                Plan(RECORDS[0]).repair_plan(huge)
        self.met(0, 17)
