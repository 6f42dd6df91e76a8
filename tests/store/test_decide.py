"""The rules by which a write counts, tried on every way in which a write can be cut short, with every choice of nodes that are here.

A node is a pair of headers, that of its share and that of what it has prepared. A write is sent to its participants in two steps;
it is cut short anywhere, in any order of the nodes. Then some nodes are looked at, what the ruling says is done, and other nodes are
looked at.
"""
import unittest
from itertools import chain, combinations
from types import SimpleNamespace

import support  # noqa: F401
from imagestore.decide import View, decide
from imagestore.errors import StoreError, TooFewNodes


def header(node, write, generation, participants, writes, removed=False):
    return SimpleNamespace(name="image", node=node, write=write, generation=generation, participants=frozenset(participants),
                           writes=tuple(writes), removed=removed, content=writes[node])


def at(node, other):
    return header(node, other.write, other.generation, other.participants, other.writes, other.removed)


def subsets(items, least=0):
    items = list(items)
    return chain.from_iterable(combinations(items, size) for size in range(least, len(items) + 1))


class Model:
    """n nodes with an image, all at write 1."""

    def __init__(self, n, k):
        self.n, self.k = n, k
        self.current = {node: header(node, 1, 1, range(n), [1] * n) for node in range(n)}
        self.pending, self.last = {}, 1

    def copy(self):
        other = Model(self.n, self.k)
        other.current, other.pending, other.last = dict(self.current), dict(self.pending), self.last
        return other

    def ruling(self, here):
        return decide(View(self.n, self.k, {j: h for j, h in self.current.items() if j in here},
                           {j: h for j, h in self.pending.items() if j in here}, frozenset(range(self.n)) - set(here)))

    def settle(self, here):
        """Does what the ruling on these nodes says; gives the header that counts."""
        ruling = self.ruling(here)
        for node in ruling.commit:
            self.commit(node)
        for node in ruling.drop:
            del self.pending[node]
        return ruling.header

    def commit(self, node):
        self.current[node] = self.pending.pop(node)

    def next_write(self, counted, changed, here):
        """The header of an update that changes some nodes, made where these nodes are here, as `update` makes it."""
        self.last += 1
        right = [j for j in here if self.current[j].content == counted.writes[j]]
        told = [j for j in changed if j in right] if set(changed) <= set(right) else right
        generation = 1 + max(h.generation for h in chain(
            (self.current[j] for j in here), (self.pending[j] for j in here if j in self.pending)))
        writes = [self.last if j in changed else counted.writes[j] for j in range(self.n)]
        return header(0, self.last, generation, told, writes)

    def prepare(self, write, nodes):
        for node in nodes:
            self.pending[node] = at(node, write)


def cut_short(model, write):
    """The model after each way in which a write ends: prepared at some nodes, or at all and committed at some."""
    for prepared in subsets(write.participants):
        cut = model.copy()
        cut.prepare(write, prepared)
        yield cut, False
    for committed in subsets(write.participants, 1):
        cut = model.copy()
        cut.prepare(write, write.participants)
        for node in committed:
            cut.commit(node)
        yield cut, len(committed) == len(write.participants)


class Decisions(unittest.TestCase):
    def every_way(self, n, k):
        """An update of every set of n-k+1 nodes or more, with every set of nodes away, cut short in every way."""
        for changed in subsets(range(n), n - k + 1):
            for here in subsets(range(n), k):
                model = Model(n, k)
                write = model.next_write(model.current[here[0]], changed, here)
                for cut, acknowledged in cut_short(model, write):
                    yield cut, write, here, acknowledged

    def judge(self, n, k):
        count = 0
        for cut, write, here, acknowledged in self.every_way(n, k):
            for seen in subsets(range(n), k):
                count += 1
                self.judge_one(cut.copy(), write, here, acknowledged, seen)
        return count

    def judge_one(self, model, write, here, acknowledged, seen):
        """One way, and the nodes that are then looked at."""
        knows = set(seen) & set(write.participants)
        try:
            counted = model.settle(seen)
        except TooFewNodes:
            right = [j for j in seen if model.current[j].content == write.writes[j]]
            self.assertLess(len(right), model.k, "refused, and k nodes have the new content")
            return
        if acknowledged and knows:
            self.assertEqual(counted.write, write.write, "a write that was acknowledged is gone")
        self.assertIn(counted.write, (1, write.write))
        self.whole(model, seen, counted)
        # what was decided stays: the same nodes, and all of them, say the same afterwards
        self.assertEqual(model.ruling(seen).header.write, counted.write)
        self.assertTrue(model.ruling(seen).settled)
        if set(seen) & set(write.participants) == set(write.participants):
            self.assertEqual(model.settle(range(model.n)).write, counted.write)

    def whole(self, model, seen, counted):
        """k nodes of those that are seen hold the content that counts."""
        right = [j for j in seen if model.current[j].content == counted.writes[j]]
        self.assertGreaterEqual(len(right), model.k)
        self.assertEqual(sorted(right), sorted(model.ruling(seen).right))

    def test_three_nodes(self):
        self.assertGreater(sum(self.judge(3, k) for k in (1, 2, 3)), 500)

    def test_four_nodes(self):
        self.assertGreater(sum(self.judge(4, k) for k in (2, 3)), 5000)

    def test_a_second_write(self):
        """A write after one that was cut short, made by other nodes and acknowledged: no k nodes of those that may be lost hide it."""
        n, k = 3, 2
        for cut, write, here, _ in self.every_way(n, k):
            for seen in subsets(range(n), k):
                model = cut.copy()
                try:
                    counted = model.settle(seen)
                except TooFewNodes:
                    continue
                second = model.next_write(counted, (0, 1), seen)
                model.prepare(second, second.participants)
                for node in second.participants:
                    model.commit(node)
                for then in subsets(range(n), k):
                    try:
                        self.assertEqual(model.copy().settle(then).write, second.write)
                    except TooFewNodes:
                        right = [j for j in then if model.current[j].content == second.writes[j]]
                        self.assertLess(len(right), k)


class Oddities(unittest.TestCase):
    def test_no_image(self):
        self.assertIsNone(decide(View(3, 2, {}, {}, frozenset())).header)

    def test_a_foreign_header_of_a_later_generation(self):
        model = Model(5, 3)
        model.current[2] = header(2, 99, 900, range(5), [99] * 5)
        ruling = model.ruling(range(5))
        self.assertEqual((ruling.header.write, ruling.wrong), (1, (2,)))

    def test_a_later_write_that_nodes_that_are_away_may_hold(self):
        model = Model(5, 2)
        model.current[0] = header(0, 2, 2, range(5), [2] * 5)
        with self.assertRaises(TooFewNodes):
            model.ruling([0, 1, 2])

    def test_a_write_in_doubt_can_be_given_up(self):
        model = Model(4, 3)
        write = header(0, 2, 2, (0, 1, 2), [2] * 4)
        model.prepare(write, (0, 1))
        seen = [0, 1, 3]
        with self.assertRaises(TooFewNodes):
            model.ruling(seen)
        view = View(4, 3, {j: model.current[j] for j in seen}, dict(model.pending), frozenset([2]))
        ruling = decide(view, undo=True)
        self.assertEqual((ruling.header.write, sorted(ruling.drop)), (1, [0, 1]))

    def test_two_halves_that_were_written_apart(self):
        """Refused, until one half is left out and the other written once more."""
        model = Model(4, 2)
        for node in range(4):
            write = 2 if node < 2 else 3
            model.current[node] = header(node, write, 2, (0, 1) if node < 2 else (2, 3), [write] * 4)
        with self.assertRaisesRegex(StoreError, "two writes of generation 2"):
            model.ruling(range(4))
        model.last = 3
        third = model.next_write(model.settle((0, 1)), (0, 1, 2), (0, 1))
        model.prepare(third, third.participants)
        for node in third.participants:
            model.commit(node)
        ruling = model.ruling(range(4))
        self.assertEqual((ruling.header.write, ruling.right, ruling.wrong), (third.write, (0, 1), (2, 3)))

    def test_a_removed_image_needs_no_shares(self):
        model = Model(3, 2)
        removed = header(0, 2, 2, range(3), [2] * 3, removed=True)
        model.current = {0: at(0, removed)}
        ruling = model.ruling(range(3))
        self.assertTrue(ruling.header.removed)
        self.assertEqual((ruling.right, ruling.wrong), ((0, 1, 2), ()))


if __name__ == "__main__":
    unittest.main()
