"""Lost and wrong together, on every build, against tests/reference: every number of listed nodes, damage up to the bound and beyond."""
from balanced import ERRORS, Plan

from .calling import CallCase, rounds
from .inputs import sometimes, spoilt, symbols
from .reference import code, listed

PLAN = Plan([1, 7, 3, 6, 3])


class Listed(CallCase):
    def damaged(self, random, plan, known, held, s):
        """In each lane so many wrong symbols as can be borne, fewer, or one more."""
        out = []
        for lane in code.lanes_of(known.symbols(held), s):
            lane, most = list(lane), (s - plan.k) // 2
            for at in random.sample(range(s), min(s, random.choice([0, 0, most, random.randint(0, most), most + sometimes(random, 1, 0)]))):
                lane[at] = random.randrange(known.field.size)
            out += lane
        return known.bytes(out)

    def test_correct_listed(self):
        for random, record, plan, known in rounds(41, 300, most=17):
            lanes, s = random.randint(1, 4), random.randint(plan.k, plan.n)
            shares = code.encode(record, lanes, symbols(random, known, plan.k * lanes), plan.shares_len(lanes))[1]
            nodes = random.sample(range(plan.n), s)
            held = self.damaged(random, plan, known, code.listed_shares(known, shares, nodes), s)
            held = spoilt(random, known, sometimes(random, symbols(random, known, s * lanes), held))
            nodes[-1] = sometimes(random, random.choice([plan.n, 255, nodes[0]]), nodes[-1])
            nodes = bytes(nodes[:sometimes(random, random.choice([-1, plan.k - 1]), s)])
            number, result = listed.correct_listed(record, lanes, nodes, held, plan.message_len(lanes), len(nodes))
            into = bytearray(plan.message_len(lanes))
            for given in ((into,), ()):
                ours, (message, wrong), _ = (lambda n, r, l: (n, r or (None, None), l))(
                    *self.outcome(plan.correct_listed, lanes, nodes, held, *given))
                self.assertEqual((ours, None if ours else (sum(wrong), bytes(message), wrong)), (number, result), (record, nodes, held))
        self.met(0, 8, 9, 10, 11, 14)

    def test_room(self):
        for size in (2, 4):
            with self.assertRaises(ERRORS[8]):
                PLAN.correct_listed(1, [0, 1, 2, 3], bytes([6, 1, 1, 3]), bytearray(size))
        for lanes in (0, 4097, -1, 2**40):
            with self.assertRaises(ERRORS[7]):
                PLAN.correct_listed(lanes, [0, 1, 2, 3], bytes([6, 1, 1, 3]))
        with self.assertRaises(ERRORS[9]):
            PLAN.correct_listed(1, [0, 1, 2, 2**40], bytes([6, 1, 1, 3]))

    def test_agrees_with_correct(self):
        """With all nodes listed in order the counts are those of the symbols that `correct` alters."""
        plan = Plan([2, 2, 255, 120])
        message = bytes(i * i % 256 for i in range(120 * 9))
        shares = plan.encode(9, message)
        wrong = {node: node % 9 + 1 for node in range(0, 67 * 3, 3)}
        for node, lanes in wrong.items():
            for lane in range(lanes):
                shares[255 * lane + node] ^= 1 + lane
        found, counts = plan.correct_listed(9, range(255), shares)
        self.assertEqual((found, {node: count for node, count in enumerate(counts) if count}), (message, wrong))
        self.assertEqual(plan.correct(9, shares), sum(counts))
