"""Changes of rows, on every build, against tests/reference."""
from balanced import ERRORS, Plan

from .calling import CallCase, block, rounds
from .inputs import altered, room, some_lanes, sometimes, spoilt, symbols
from .reference import differences

PLAN = Plan([1, 7, 3, 6, 3])


class Changes(CallCase):
    def test_differences(self):
        for random, record, plan, known in rounds(22):
            lanes, symbol = some_lanes(random), sometimes(random, plan.k, random.randrange(plan.k))
            old, new = (spoilt(random, known, symbols(random, known, lanes)) for _ in range(2))
            into = room(random, plan.shares_len(lanes))
            expected = differences.differences(record, lanes, symbol, old, new, len(into))
            self.same_written(expected, plan.differences, lanes, symbol, old, new, into)
        self.met(0, 8, 9, 11)

    def test_add_share(self):
        for random, record, plan, known in rounds(23):
            lanes = some_lanes(random)
            difference, share = (spoilt(random, known, symbols(random, known, lanes)) for _ in range(2))
            number, after = differences.add_share(record, lanes, difference, share)
            expected = number, None if number else (None, after)
            self.same_changed(expected, plan.add_share, lanes, difference, bytearray(share))
        self.met(0, 8, 11)

    def test_update_lanes(self):
        for random, record, plan, known in rounds(24):
            lanes, shares = block(random, record, plan, known)
            first, symbol = sometimes(random, lanes + 1, random.randrange(lanes + 1)), random.randrange(plan.k)
            run = [known.symbols(shares)[t * plan.n:(t + 1) * plan.n] for t in range(first, lanes)][:random.randrange(4)]
            old = spoilt(random, known, known.bytes([known.message(lane)[symbol] for lane in run]))
            new = spoilt(random, known, symbols(random, known, len(run)))
            shares = altered(random, known, shares, lanes) if random.random() < 0.3 else spoilt(random, known, shares)
            given = lanes, sometimes(random, plan.k, symbol), first, sometimes(random, new, old), new
            self.same_changed(differences.update_lanes(record, *given, shares), plan.update_lanes, *given, bytearray(shares))
        self.met(0, 8, 9, 11, 12, 13)

    def test_numbers_that_no_type_holds(self):
        for huge in (-1, 2**32, 2**64, 10**30):
            for number, call in (
                (7, lambda: PLAN.differences(huge, 1, b"\0", b"\5")), (9, lambda: PLAN.differences(1, huge, b"\0", b"\5")),
                (7, lambda: PLAN.add_share(huge, b"\0", bytearray(1))), (9, lambda: PLAN.update_lanes(1, 1, huge, b"", b"", bytearray(6))),
            ):
                with self.assertRaises(ERRORS[number]):
                    call()

    def test_nodes_outside_the_row(self):
        """The d nodes of the row are told something, and no other node is."""
        plan = Plan([2, 11, 15, 10])
        for row in range(10):
            parts = plan.differences(3, row, b"old", b"new")
            told = [node for node in range(15) if any(parts[3 * node:3 * node + 3])]
            self.assertEqual(told, [node for node in range(15) if plan.entry(row, node)])
            self.assertEqual(len(told), plan.d)
