"""Every call on blocks and lanes, on every build, against tests/reference: random inputs of every kind of record, some refused."""
from random import Random

from balanced import Added, NoSingleUpdate, Plan, Unchanged

from .calling import CallCase, block, rounds
from .inputs import altered, plan_of, record_with, room, some_lanes, some_record, sometimes, spoilt, symbols
from .reference import code


def listed(random, record, plan, known):
    """Lanes, nodes and their shares, of an encoding or of any symbols, sometimes with a fault."""
    lanes, shares = block(random, record, plan, known)
    nodes = random.sample(range(plan.n), plan.k)
    held = random.choice([code.listed_shares(known, shares, nodes), symbols(random, known, plan.k * lanes)])
    nodes[-1] = sometimes(random, random.choice([plan.n, 255, nodes[0]]), nodes[-1])
    return lanes, bytes(nodes[:sometimes(random, -1, plan.k)]), spoilt(random, known, held)


class Calls(CallCase):
    def test_plan(self):
        random = Random(1)
        for _ in range(300):
            record = bytearray(some_record(random))
            for _ in range(random.choice([0, 0, 1, 2])):
                record[random.randrange(len(record))] = random.choice([0, 1, 2, 3, 255, random.randrange(256)])
            record = bytes(record[:sometimes(random, random.choice([-1, 1, 0]), len(record))])
            number, known = code.build_plan(record)
            ours, plan, _ = self.outcome(Plan, record)
            self.assertEqual(ours, number, record)
            if not number:
                self.same_plan(plan, known)
        self.met(0, 1, 2, 3, 4, 5)

    def same_plan(self, plan, known):
        numbers = plan.n, plan.k, plan.d, plan.low_reads, plan.high_reads, plan.symbol_len
        self.assertEqual(numbers, (known.n, known.k, known.d, known.low, known.high, known.field.width))
        self.assertEqual((list(plan.shifts), list(plan.firsts), list(plan.base_word)), (known.shifts, known.firsts, known.entries[0]))
        self.assertEqual([[plan.entry(r, j) for j in range(plan.n)] for r in range(plan.k)], known.entries)

    def test_encode(self):
        for random, record, plan, known in rounds(2):
            lanes = sometimes(random, random.choice([0, 4097]), some_lanes(random))
            message = spoilt(random, known, symbols(random, known, plan.k * min(lanes, 99)))
            into = room(random, plan.shares_len(lanes))
            self.same_written(code.encode(record, lanes, message, len(into)), plan.encode, lanes, message, into)
        self.met(0, 7, 8, 11)

    def test_update(self):
        for random, record, plan, known in rounds(3):
            lanes, shares = block(random, record, plan, known)
            shares = spoilt(random, known, sometimes(random, altered(random, known, shares, 3), shares))
            symbol, lane = random.randrange(plan.k), random.randrange(lanes)
            word = known.symbols((shares + b"\0\0")[plan.shares_len(lane):plan.shares_len(lane + 1)])
            old = sometimes(random, 1, known.message(word)[symbol])
            new = sometimes(random, known.field.size, random.randrange(known.field.size))
            given = lanes, sometimes(random, plan.k, symbol), sometimes(random, lanes, lane), old, new
            self.same_changed(code.update(record, *given, shares), plan.update, *given, bytearray(shares))
        self.met(0, 8, 9, 11, 12, 13)

    def test_recover(self):
        for random, record, plan, known in rounds(4):
            lanes, nodes, held = listed(random, record, plan, known)
            into = room(random, plan.message_len(lanes))
            self.same_written(code.recover(record, lanes, nodes, held, len(into)), plan.recover, lanes, nodes, held, into)
        self.met(0, 8, 9, 10, 11)

    def test_rebuild(self):
        for random, record, plan, known in rounds(5):
            lanes, nodes, held = listed(random, record, plan, known)
            target, into = sometimes(random, plan.n, random.randrange(plan.n)), room(random, plan.share_len(lanes))
            expected = code.rebuild(record, lanes, nodes, held, target, len(into))
            self.same_written(expected, plan.rebuild, lanes, nodes, held, target, into)
        self.met(0, 8, 9, 10, 11)

    def test_belongs(self):
        for random, record, plan, known in rounds(6):
            lanes, shares = block(random, record, plan, known)
            shares = spoilt(random, known, altered(random, known, shares, 2))
            self.same(code.belongs(record, lanes, shares), plan.belongs, lanes, shares)
        self.met(0, 8, 11)

    def test_correct(self):
        for random, record, plan, known in rounds(7, most=17):
            lanes, shares = block(random, record, plan, known)
            shares = spoilt(random, known, altered(random, known, shares, 4))
            self.same_changed(code.correct(record, lanes, shares), plan.correct, lanes, bytearray(shares))
        self.met(0, 8, 11, 14)

    def test_find_update(self):
        names = {"unchanged": Unchanged(), None: NoSingleUpdate()}
        for random, record, plan, known in rounds(8, fields=(0, 3, 7, 13, 31, 251, 257), most=15):
            before = symbols(random, known, plan.n)
            row, amount = random.choice(known.entries), random.randrange(known.field.size)
            moved = known.bytes([known.field.plus(x, known.field.times(amount, e)) for x, e in zip(known.symbols(before), row)])
            after = spoilt(random, known, random.choice([before, moved, moved, altered(random, known, moved, 1)]))
            number, found = code.find_update(record, before, after)
            expected = number, None if number else names[found] if found in names else Added(*found)
            self.same(expected, plan.find_update, before, after)
        self.met(0, 8, 11)

    def test_mends(self):
        small = [(random, *rest) for random, *rest in rounds(9, fields=(0, 3, 7, 13, 31, 251), most=10)]
        for record in (record_with(257, 4, 3), record_with(257, 4, 2), record_with(1021, 4, 3)):
            small.append((Random(9), record, Plan(record), plan_of(record)))
        for random, record, plan, known in small:
            lane = code.encode(record, 1, symbols(random, known, plan.k), plan.shares_len(1))[1]
            lane = spoilt(random, known, altered(random, known, lane, 2))
            number, changes = code.single_mends(record, lane, plan.n, plan.shares_len(1))
            expected = number, None if number else list(zip(changes[0], known.symbols(changes[1])))
            self.same(expected, plan.mends, lane)
        self.met(0, 8, 11)

    def test_rearranged(self):
        for random, record, plan, _ in rounds(10):
            lanes = some_lanes(random)
            shares = random.randbytes(plan.shares_len(lanes) + sometimes(random, 1, 0))
            into = room(random, plan.shares_len(lanes))
            self.same_written(code.to_lanes(record, lanes, shares, len(into)), plan.to_lanes, lanes, shares, into)
            self.same_written(code.to_nodes(record, lanes, shares, len(into)), plan.to_nodes, lanes, shares, into)
        self.met(0, 8)

    def test_weights(self):
        for record in ([1, 7, 3, 6, 3], [1, 3, 2, 2, 2], [2, 214, 3, 1], [2, 214, 3, 3], [3, 1, 1, 0, 16, 4, 1], [1, 13, 5, 4, 3]):
            plan = Plan(record)
            self.same(code.weights(plan.record, plan.n + 1), plan.weights)
        self.met(0, 16)

    def test_many_nodes(self):
        for record in (record_with(251, 25, 12), bytes([2, 2, 255, 120]), bytes([3, 3, 253, 0, 5, 255, 7])):
            random, plan, known = Random(11), Plan(record), plan_of(record)
            message = symbols(random, known, plan.k * 3)
            shares = code.encode(record, 3, message, plan.shares_len(3))[1]
            self.same_written((0, shares), plan.encode, 3, message, bytearray(len(shares)))
            nodes = random.sample(range(plan.n), plan.k)
            held = code.listed_shares(known, shares, nodes)
            self.same_written((0, message), plan.recover, 3, nodes, held, bytearray(len(message)))
            self.same((0, None), plan.belongs, 3, shares)
            wrong = bytearray(shares)
            for node in random.sample(range(plan.n), (plan.n - plan.k) // 2):
                wrong[node * plan.symbol_len:(node + 1) * plan.symbol_len] = bytes(plan.symbol_len)
            count = sum(a != b for a, b in zip(known.symbols(wrong), known.symbols(shares)))
            self.same_changed((0, (count, shares)), plan.correct, 3, wrong)
