"""Bytes in symbols and records that carry them, on every build, against tests/reference."""
from random import Random

import balanced
from balanced import ERRORS, CarryError, Plan, choose

from .calling import CallCase
from .inputs import room, sometimes
from .reference import carry
from .reference import choose as chosen

COUNTS = (0, 1, 2, 3, 4, 12, 13, 254, 508, 510, 512, 514, 1020, 3000)


def adversarial(p, count):
    """Words each of which rules out another mask: 0, 1, 2 and so on."""
    words = [i % 65536 ^ 65535 for i in range((count + 1) // 2)]
    return b"".join(word.to_bytes(2, "big") for word in words)[:count]


class Carrying(CallCase):
    def data(self, random, record, count):
        p = record[1] * 256 + record[2] if record[0] == 3 else 65521
        return random.choice([bytes(count), b"\xff" * count, random.randbytes(count), adversarial(p, count)])

    def records(self, random):
        for n in sorted({2, 3, 4, 6, 12, 15, 253, 254, 255, *random.sample(range(2, 256), 30)}):
            yield chosen.record_for(n, random.randint(1, n))

    def test_carried(self):
        random = Random(31)
        for record in [*self.records(random), bytes([1, 7, 3, 6, 3]), bytes([3, 1, 1, 0, 16, 4, 2])]:
            plan = Plan(record)
            for count in random.sample(COUNTS, 6):
                data = self.data(random, record, count)
                number, length = carry.carried_len(record, count)
                self.same((number, length), plan.carried_len, count)
                into = room(random, length or 0)
                self.same_written(carry.carry_in(record, data, len(into)), plan.carry_in, data, into)
                if not number:
                    self.out(random, record, plan, carry.carry_in(record, data, length)[1], count)
        self.assertRaises(CarryError, Plan([1, 7, 3, 6, 3]).carry_out, b"", 0)
        self.same((8, None), Plan([2, 11, 15, 10]).carried_len, 2**62 + 1)
        self.met(0, 8, 11, 18)

    def test_changed(self):
        """A part of the bytes changed, beside the reference; also behind them, and in what is no symbol."""
        random = Random(33)
        for record in [*self.records(random), bytes([1, 7, 3, 6, 3]), bytes([3, 1, 1, 0, 16, 4, 2])]:
            plan = Plan(record)
            for count in random.sample(COUNTS, 6):
                data = self.data(random, record, count)
                number, symbols = carry.carry_in(record, data, carry.carried_len(record, count)[1] or 0)
                symbols = bytes(4) if number else symbols
                if symbols and random.random() < 0.2:
                    symbols = b"\xff\xff" + symbols[2:]
                at = random.randrange(count + 2)
                new = random.choice([b"", b"\xff", random.randbytes(random.randrange(40))])
                number, _, lent = self.outcome(plan.carry_change, bytearray(symbols), count, at, new)
                expect, after = carry.carry_change(record, count, at, new, symbols)
                self.assertEqual((number, bytes(lent[0])), (expect, symbols if expect else after), (record, count, at, new))
        self.met(0, 9, 11, 18)

    def test_one_symbol(self):
        plan = Plan(choose(6, 5))
        symbols = plan.carry_in(bytes(1000))
        before = bytes(symbols)
        plan.carry_change(symbols, 1000, 777, b"x")
        self.assertEqual(sum(old != new for old, new in zip(before, symbols)), 1)
        for wrong in (None, "text", 5):
            self.assertRaises(TypeError, plan.carry_change, symbols, 1000, 0, wrong)
        self.assertRaises(TypeError, plan.carry_change, before, 1000, 0, b"x")

    def out(self, random, record, plan, symbols, count):
        """What was carried comes back; also what is too short, too long, or no symbol."""
        wrong = bytearray(symbols)
        if wrong and random.random() < 0.3:
            at = random.randrange(len(wrong)) // plan.symbol_len * plan.symbol_len
            wrong[at:at + plan.symbol_len] = b"\xff" * plan.symbol_len
        symbols, count = bytes(wrong), max(0, count + sometimes(random, random.choice([-2, -1, 1, 2]), 0))
        number, result, _ = self.outcome(plan.carry_out, symbols, count)
        self.assertEqual((number, None if number else bytes(result)), carry.carry_out(record, symbols, count), (record, symbols, count))

    def test_into(self):
        plan = Plan(choose(6, 5))
        symbols, data = bytearray(plan.carried_len(4)), bytearray(4)
        self.assertIs(plan.carry_in(b"four", symbols), symbols)
        self.assertIs(plan.carry_out(symbols, 4, data), data)
        self.assertEqual(data, b"four")
        self.assertRaises(balanced.LengthError, plan.carry_in, b"four", bytearray(7))
        for wrong in (None, "text", 5):
            self.assertRaises(TypeError, plan.carry_in, wrong)
            self.assertRaises(TypeError, plan.carry_out, wrong, 0)

    def test_round_trips(self):
        """Every n from 2 to 255: bytes through carry_in, encode, recover from random k nodes, carry_out."""
        random = Random(32)
        for n in range(2, 256):
            plan = Plan(choose(n, random.randint(1, n)))
            lanes = random.randint(1, 6)
            count = self.most(plan, lanes)
            for data in (random.randbytes(count), b"\xff" * count):
                symbols = plan.carry_in(data)
                message = symbols + bytes(plan.message_len(lanes) - len(symbols))
                shares, nodes = plan.encode(lanes, message), random.sample(range(n), plan.k)
                width = plan.symbol_len
                held = b"".join(shares[(t * n + j) * width:(t * n + j + 1) * width] for t in range(lanes) for j in nodes)
                back = plan.recover(lanes, nodes, held)
                self.assertEqual(plan.carry_out(back[:len(symbols)], count), data)

    def most(self, plan, lanes):
        """The most bytes that a message of so many lanes carries."""
        return max(count for count in range(plan.message_len(lanes) + 1) if plan.carried_len(count) <= plan.message_len(lanes))

    def test_choose(self):
        for n in range(2, 256):
            for k in {1, (n + 1) // 2, n}:
                number, record, _ = self.outcome(choose, n, k)
                self.assertEqual((number, record), chosen.choose(n, k, 7))
                plan = Plan(record)
                self.assertEqual((plan.n, plan.k), (n, k))
        for n, k in ((0, 0), (1, 1), (256, 1), (6, 0), (6, 7), (-1, 1), (6, -1), (2**40, 3)):
            with self.assertRaises(ERRORS[4]):
                choose(n, k)
        self.met(0)
