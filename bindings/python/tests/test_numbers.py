"""Every number that a method meets is its error, and nothing lent has changed; numbers that no type of C holds meet theirs too."""
import pickle
import unittest

import balanced
from balanced import ERRORS, Plan, Roster

PLAN = Plan([1, 7, 3, 6, 3])
LANE = [6, 1, 1, 3, 6, 2]  # the message 1 0 2
HUGE = [-1, -(2**40), 4294967295, 2**32, 2**32 + 1, 2**64, 10**30]


def lane(*changes):
    """The lane with symbols replaced."""
    symbols = bytearray(LANE)
    for node, symbol in changes:
        symbols[node] = symbol
    return symbols


# Method, arguments, and the number that turns the call away.
REFUSED = [
    (PLAN.encode, (0, b"\1\0\2"), 7), (PLAN.encode, (4097, b"\1\0\2"), 7), (PLAN.encode, (1, b"\1\0"), 8),
    (PLAN.encode, (1, b"\1\0\2", bytearray(7)), 8), (PLAN.encode, (1, b"\1\0\7"), 11),
    (PLAN.update, (0, 1, 0, 0, 5, lane()), 7), (PLAN.update, (1, 1, 0, 0, 5, lane() + b"\0"), 8),
    (PLAN.update, (1, 3, 0, 0, 5, lane()), 9), (PLAN.update, (1, 1, 1, 0, 5, lane()), 9),
    (PLAN.update, (1, 1, 0, 7, 5, lane()), 11), (PLAN.update, (1, 1, 0, 0, 7, lane()), 11),
    (PLAN.update, (1, 1, 0, 0, 5, lane((4, 9))), 11), (PLAN.update, (1, 1, 0, 0, 5, lane((5, 3))), 12),
    (PLAN.update, (1, 1, 0, 4, 5, lane()), 13),
    (PLAN.update_lanes, (0, 1, 0, b"\0", b"\5", lane()), 7), (PLAN.update_lanes, (1, 1, 0, b"\0", b"\5", lane() + b"\0"), 8),
    (PLAN.update_lanes, (1, 1, 0, b"\0", b"\5\5", lane()), 8), (PLAN.update_lanes, (1, 3, 0, b"\0", b"\5", lane()), 9),
    (PLAN.update_lanes, (1, 1, 1, b"\0", b"\5", lane()), 9), (PLAN.update_lanes, (1, 1, 2, b"", b"", lane()), 9),
    (PLAN.update_lanes, (1, 1, 0, b"\7", b"\5", lane()), 11), (PLAN.update_lanes, (1, 1, 0, b"\0", b"\7", lane()), 11),
    (PLAN.update_lanes, (1, 1, 0, b"\0", b"\5", lane((4, 9))), 11), (PLAN.update_lanes, (1, 1, 0, b"\0", b"\5", lane((5, 3))), 12),
    (PLAN.update_lanes, (2, 1, 0, b"\0\4", b"\5\5", lane() * 2), 13),
    (PLAN.recover, (0, [2, 3, 4], b"\1\3\1"), 7), (PLAN.recover, (1, [2, 3], b"\1\3\1"), 8),
    (PLAN.recover, (1, [2, 3, 4], b"\1\3"), 8), (PLAN.recover, (1, [2, 3, 4], b"\1\3\1", bytearray(2)), 8),
    (PLAN.recover, (1, [2, 3, 6], b"\1\3\1"), 9), (PLAN.recover, (1, [2, 3, 2], b"\1\3\1"), 10),
    (PLAN.recover, (1, [2, 3, 4], b"\1\3\7"), 11),
    (PLAN.rebuild, (0, [2, 3, 4], b"\1\3\1", 0), 7), (PLAN.rebuild, (1, [2, 3], b"\1\3\1", 0), 8),
    (PLAN.rebuild, (1, [2, 3, 4], b"\1\3\1", 0, bytearray(2)), 8), (PLAN.rebuild, (1, [2, 3, 4], b"\1\3\1", 6), 9),
    (PLAN.rebuild, (1, [2, 2, 4], b"\1\3\1", 0), 10), (PLAN.rebuild, (1, [2, 3, 4], b"\7\3\1", 0), 11),
    (PLAN.belongs, (0, lane()), 7), (PLAN.belongs, (2, lane()), 8), (PLAN.belongs, (1, lane((0, 7))), 11),
    (PLAN.correct, (0, lane()), 7), (PLAN.correct, (2, lane()), 8), (PLAN.correct, (1, lane((0, 7))), 11),
    (PLAN.correct, (1, lane((0, 5), (1, 5))), 14),
    (PLAN.correct_listed, (0, [2, 3, 4, 0], b"\1\3\6\6"), 7), (PLAN.correct_listed, (1, [2, 3], b"\1\3"), 8),
    (PLAN.correct_listed, (1, [2, 3, 4, 0], b"\1\3\6"), 8), (PLAN.correct_listed, (1, [2, 3, 4, 0], b"\1\3\6\6", bytearray(2)), 8),
    (PLAN.correct_listed, (1, [2, 3, 4, 6], b"\1\3\6\6"), 9), (PLAN.correct_listed, (1, [2, 3, 4, 2], b"\1\3\6\1"), 10),
    (PLAN.correct_listed, (1, [2, 3, 4, 0], b"\1\3\6\7"), 11), (PLAN.correct_listed, (1, [2, 3, 4, 0], b"\1\3\6\5"), 14),
    (PLAN.find_update, (lane(), bytes(5)), 8), (PLAN.find_update, (bytes(7), lane()), 8),
    (PLAN.find_update, (lane(), lane((3, 7))), 11),
    (PLAN.mends, (bytes(5),), 8), (PLAN.mends, (lane((3, 7)),), 11),
    (PLAN.to_lanes, (0, lane()), 7), (PLAN.to_lanes, (1, bytes(5)), 8), (PLAN.to_lanes, (1, lane(), bytearray(5)), 8),
    (PLAN.to_nodes, (4097, lane()), 7), (PLAN.to_nodes, (1, bytes(7)), 8), (PLAN.to_nodes, (1, lane(), bytearray(7)), 8),
    (Plan([1, 7, 3, 6, 6]).weights, (), 16), (PLAN.repair_plan, (), 17), (PLAN.carried_len, (2,), 18),
    (Plan([2, 11, 15, 10]).carry_change, (bytearray(4), 4, 4, b"x"), 9), (Plan([2, 11, 15, 10]).carry_change, (bytearray(4), 4, 2**64, b""), 9),
    (Plan, ([],), 1), (Plan, ([4, 7, 3, 6, 3],), 1), (Plan, ([1, 7, 3, 6],), 2), (Plan, ([1, 9, 3, 6, 3],), 3),
    (Plan, ([1, 7, 3, 6, 7],), 4), (Plan, ([1, 7, 2, 6, 3],), 5), (Plan, (b"\2\2\xff\0",), 4),
    (Roster.start, ([1, 7, 2, 6, 3],), 5), (Roster, (PLAN, bytes(255)), 8),
    (Roster.start(PLAN).leave, (6,), 9), (Roster.start(PLAN).rejoin, (6,), 9), (Roster.start(PLAN).rejoin, (0,), 15),
]


class Numbers(unittest.TestCase):
    def refused(self, method, given, number):
        before = [bytes(x) if isinstance(x, (bytes, bytearray)) else x for x in given]
        with self.subTest(method=method, given=given), self.assertRaises(ERRORS[number]) as raised:
            method(*given)
        self.assertEqual((raised.exception.number, list(given)), (number, before))

    def test_each(self):
        for method, given, number in REFUSED:
            self.refused(method, given, number)
        # 6 is reserved
        self.assertEqual({number for *_, number in REFUSED}, set(ERRORS) - {6})

    def test_no_type_holds_it(self):
        for number in HUGE:
            self.refused(PLAN.encode, (number, b"\1\0\2"), 7)
            self.refused(PLAN.belongs, (number, lane()), 7)
            self.refused(PLAN.rebuild, (1, [2, 3, 4], b"\1\3\1", number), 9)
            self.refused(PLAN.recover, (1, [2, 3, number], b"\1\3\1"), 9)
            self.refused(PLAN.recover, (1, [number, 3, number], b"\1\3\1"), 9)
            self.refused(PLAN.update, (1, number, 0, 0, 5, lane()), 9)
            self.refused(PLAN.update, (1, 1, number, 0, 5, lane()), 9)
            self.refused(PLAN.update, (1, 1, 0, number, 5, lane()), 11)
            self.refused(PLAN.update, (1, 1, 0, 0, number, lane()), 11)

    def test_lowest_first(self):
        """A number that no type holds keeps its place in the order."""
        self.refused(PLAN.rebuild, (2**32 + 1, [2, 2, 300], b"\7", 2**40), 7)
        self.refused(PLAN.rebuild, (1, [2, 2], b"\7\7\7", 2**40), 8)
        self.refused(PLAN.rebuild, (1, [2, 2, 3], b"\7\7\7", 2**40), 9)

    def test_record_is_bytes(self):
        for record in ([1, 7, 3, 6, 256], [-1]):
            with self.assertRaises(ValueError):
                Plan(record)
        self.assertEqual({Plan(bytearray(PLAN.record)), Plan(memoryview(PLAN.record)), Plan(iter(PLAN.record))}, {PLAN})

    def test_errors_travel(self):
        """An error can be sent from process to process."""
        error = pickle.loads(pickle.dumps(balanced.StaleError()))
        self.assertEqual((type(error), error.number, error.name), (balanced.StaleError, 13, "stale"))

    def test_entry(self):
        for row, node in ((-1, 0), (3, 0), (0, -1), (0, 6)):
            with self.assertRaises(IndexError):
                PLAN.entry(row, node)

    def test_plan_stays(self):
        with self.assertRaises(AttributeError):
            PLAN.n = 7
        self.assertEqual(pickle.loads(pickle.dumps(PLAN)), PLAN)
