#!/usr/bin/env python3
"""Holds the reference's modules to brute force on small records: every message is tried, shares are encoded anew, every byte is carried.

Each test can fail: it compares with something that is worked out in another way, and sees that every number was met.
"""
import unittest
from itertools import product
from random import Random

import carry
import choose
import listed
import traces
from balanced import correct, encode, lanes_of, listed_shares, plan_of, read, recover, to_lanes, to_nodes, update
from differences import add_share, differences, update_lanes
from rearranged import listed_to_lanes, listed_to_nodes

SMALL = [[1, 3, 2, 2, 1], [1, 5, 2, 4, 2], [1, 7, 3, 6, 2], [1, 7, 3, 6, 3], [1, 13, 5, 4, 2], [2, 214, 3, 1], [2, 214, 3, 2], [3, 1, 1, 0, 16, 4, 1]]
BLOCKS = [*SMALL, [2, 11, 15, 10], [2, 10, 5, 5], [3, 255, 241, 65, 33, 3, 2], [1, 251, 20, 5, 4]]
TRACES = [[2, 15, 17, 1], [2, 3, 51, 34], [2, 3, 51, 1], [2, 7, 85, 20], [2, 7, 85, 68], [2, 2, 255, 120], [2, 2, 255, 127], [2, 2, 255, 171], [2, 2, 255, 239]]


def plan_of_record(record):
    return plan_of(*read(record))


def some_symbols(random, plan, count):
    return plan.bytes([random.randrange(plan.field.size) for _ in range(count)])


def encoded(record, plan, lanes, message):
    number, shares = encode(record, lanes, message, plan.size(plan.n * lanes))
    assert number == 0
    return shares


class Numbers(unittest.TestCase):
    def setUp(self):
        self.numbers = set()

    def number(self, answer):
        self.numbers.add(answer[0])
        return answer

    def met(self, *numbers):
        self.assertEqual(self.numbers, set(numbers))

    def result(self, answer):
        self.assertEqual(self.number(answer)[0], 0)
        return answer[1]

    def refused(self, expected, answer):
        self.assertEqual(self.number(answer), (expected, None))


class Rearranged(Numbers):
    def test_places(self):
        random = Random(1)
        for record in BLOCKS:
            plan = plan_of_record(record)
            for lanes in (1, 2, 5):
                size, width = plan.size(plan.k * lanes), plan.size(1)
                by_node = random.randbytes(size)
                by_lane = self.result(listed_to_lanes(record, lanes, by_node, size))
                for i, t in product(range(plan.k), range(lanes)):
                    one, two = (i * lanes + t) * width, (t * plan.k + i) * width
                    self.assertEqual(by_node[one:one + width], by_lane[two:two + width])
                self.assertEqual(self.result(listed_to_nodes(record, lanes, by_lane, size)), by_node)
                if plan.k == plan.n:
                    self.assertEqual(by_lane, self.result(to_lanes(record, lanes, by_node, size)))
                    self.assertEqual(by_node, self.result(to_nodes(record, lanes, by_lane, size)))
        for call in (listed_to_lanes, listed_to_nodes):
            self.refused(7, call([1, 7, 3, 6, 3], 0, b"", 0))
            self.refused(8, call([1, 7, 3, 6, 3], 2, bytes(5), 6))
            self.refused(8, call([1, 7, 3, 6, 3], 2, bytes(6), 12))
            self.refused(5, call([1, 7, 2, 6, 3], 2, bytes(6), 6))
        self.met(0, 5, 7, 8)


class Differences(Numbers):
    def test_added(self):
        """Added to the shares of a message with the old row, the differences give those with the new one; d nodes at most add something."""
        random = Random(2)
        for record in BLOCKS:
            plan = plan_of_record(record)
            for lanes in (1, 3):
                message = some_symbols(random, plan, plan.k * lanes)
                symbol, count = random.randrange(plan.k), plan.size(lanes)
                old, new = message[symbol * count:(symbol + 1) * count], some_symbols(random, plan, lanes)
                after = message[:symbol * count] + new + message[(symbol + 1) * count:]
                parts = self.result(differences(record, lanes, symbol, old, new, plan.n * count))
                shares = to_nodes(record, lanes, encoded(record, plan, lanes, message), plan.n * count)[1]
                want = to_nodes(record, lanes, encoded(record, plan, lanes, after), plan.n * count)[1]
                adding = set()
                for j in range(plan.n):
                    part = parts[j * count:(j + 1) * count]
                    got = self.result(add_share(record, lanes, part, shares[j * count:(j + 1) * count]))
                    self.assertEqual(got, want[j * count:(j + 1) * count])
                    if any(part):
                        adding.add(j)
                row = {j for j in range(plan.n) if plan.entries[symbol][j]}
                self.assertEqual(adding, row if old != new else set())
                self.assertEqual(len(row), plan.d)

    def test_numbers(self):
        record = [1, 7, 3, 6, 3]
        self.refused(7, differences(record, 0, 9, b"", b"", 0))
        self.refused(8, differences(record, 1, 9, b"\7", b"", 6))
        self.refused(8, differences(record, 1, 9, b"\7\7", b"\0", 6))
        self.refused(8, differences(record, 1, 9, b"\7", b"\0", 5))
        self.refused(9, differences(record, 1, 3, b"\7", b"\0", 6))
        self.refused(11, differences(record, 1, 2, b"\7", b"\0", 6))
        self.refused(11, differences(record, 1, 2, b"\6", b"\7", 6))
        self.refused(7, add_share(record, 4097, b"", b""))
        self.refused(8, add_share(record, 1, b"\0\0", b"\7"))
        self.refused(8, add_share(record, 1, b"\7", b""))
        self.refused(11, add_share(record, 1, b"\7", b"\0"))
        self.refused(11, add_share(record, 1, b"\0", b"\7"))
        self.met(7, 8, 9, 11)

    def test_run_of_lanes(self):
        """Update, lane after lane; where one of them is refused, nothing changes."""
        random = Random(3)
        for record in BLOCKS:
            plan = plan_of_record(record)
            for _ in range(12):
                lanes = random.randint(1, 4)
                first = random.randrange(lanes)
                m, symbol = random.randint(0, lanes - first), random.randrange(plan.k)
                message = plan.symbols(some_symbols(random, plan, plan.k * lanes))
                shares = bytearray(encoded(record, plan, lanes, plan.bytes(message)))
                old, new = message[symbol * lanes + first:symbol * lanes + first + m], plan.symbols(some_symbols(random, plan, m))
                if random.random() < 0.3:
                    at = random.randrange(plan.n * lanes)
                    shares[plan.size(at):plan.size(at + 1)] = plan.bytes([random.randrange(plan.field.size)])
                if random.random() < 0.2 and m:
                    old = [(old[0] + 1) % plan.field.size, *old[1:]]
                answer = self.number(update_lanes(record, lanes, symbol, first, plan.bytes(old), plan.bytes(new), bytes(shares)))
                count, after, numbers = 0, bytes(shares), []
                for i in range(m):
                    number, result = update(record, lanes, symbol, first + i, old[i], new[i], after)
                    numbers.append(number)
                    if not number:
                        count, after = count + result[0], result[1]
                refused = 11 if 11 in numbers else next(filter(None, numbers), 0)
                self.assertEqual(answer, (refused, None) if refused else (0, (count, after)))
        record, shares = [1, 7, 3, 6, 3], bytes([6, 1, 1, 3, 6, 2])
        self.refused(7, update_lanes(record, 0, 3, 0, b"", b"\1", b""))
        self.refused(8, update_lanes(record, 1, 3, 0, b"", b"\1", shares))
        self.refused(8, update_lanes(record, 2, 3, 0, b"", b"", shares))
        self.refused(8, update_lanes([3, 1, 1, 0, 16, 4, 1], 1, 0, 0, b"\0", b"\0", bytes(8)))
        self.refused(9, update_lanes(record, 1, 3, 0, b"\7", b"\1", shares))
        self.refused(9, update_lanes(record, 1, 0, 1, b"\7", b"\1", shares))
        self.refused(9, update_lanes(record, 1, 0, 2, b"", b"", shares))
        self.refused(11, update_lanes(record, 1, 0, 0, b"\7", b"\1", shares))
        self.refused(11, update_lanes(record, 1, 0, 0, b"\1", b"\7", shares))
        self.refused(11, update_lanes(record, 1, 0, 0, b"\0", b"\0", b"\7" + shares[1:]))
        self.assertEqual(self.result(update_lanes(record, 1, 0, 1, b"", b"", b"\7" + shares[1:])), (0, b"\7" + shares[1:]))
        self.met(0, 7, 8, 9, 11, 12, 13)


class Carry(Numbers):
    RECORDS = [bytes([3, 255, 241, 65, 33, 3, 2]), choose.record_for(253, 100), choose.record_for(6, 5), choose.record_for(11, 3)]

    def test_round_trip(self):
        """Bytes come back, what carries them are symbols, group after group under its mask, and no other length is taken."""
        random = Random(4)
        for record in self.RECORDS:
            p = read(record)[0]
            for count in (0, 1, 2, 3, 4, 509, 510, 511, 512, 1022, 3001):
                for data in (bytes(count), b"\xff" * count, random.randbytes(count)):
                    self.round_trip(record, p, data)
        self.met(0, 8)

    def round_trip(self, record, p, data):
        length = self.result(carry.carried_len(record, len(data)))
        symbols = self.result(carry.carry_in(record, data, length))
        numbers = [int.from_bytes(symbols[at:at + 2], "big") for at in range(0, len(symbols), 2)]
        self.assertTrue(all(number < p for number in numbers))
        self.assertEqual(self.result(carry.carry_out(record, symbols, len(data))), data)
        padded = data + bytes(len(data) % 2)
        words, size = [int.from_bytes(padded[at:at + 2], "big") for at in range(0, len(padded), 2)], carry.group_words(p)
        at = 0
        for first in range(0, len(words), size):
            group, mask = words[first:first + size], numbers[at]
            self.assertEqual([word ^ mask for word in group], numbers[at + 1:at + 1 + len(group)])
            at += 1 + len(group)
        self.assertEqual(at, len(numbers))
        for number in (-2, -1, 1, 2):
            self.refused(8, carry.carry_in(record, data, length + number))

    def test_changed(self):
        """Byte by byte as in one step; the bytes are those that were asked for; a group without a changed byte is as it was; a mask is kept while it serves."""
        random = Random(11)
        for record in self.RECORDS:
            p = read(record)[0]
            size = 2 * carry.group_words(p)
            for count in (1, 2, 3, size - 1, size, size + 1, 2 * size + 3):
                data = bytearray(random.choice([bytes(count), b"\xff" * count, random.randbytes(count)]))
                symbols = self.result(carry.carry_in(record, bytes(data), self.result(carry.carried_len(record, count))))
                for _ in range(5):
                    at = random.randrange(count)
                    part = random.choice([b"\xff", b"\xff\xff", random.randbytes(random.randrange(size))])[:count - at]
                    data[at:at + len(part)] = part
                    after = self.result(carry.carry_change(record, count, at, part, symbols))
                    self.assertEqual(self.result(carry.carry_out(record, after, count)), data)
                    for group in range(0, len(symbols), size + 2):
                        first, old, new = group // (size + 2) * size, symbols[group:group + size + 2], after[group:group + size + 2]
                        touched = at < first + size and first < at + len(part)
                        words = carry.opened([int.from_bytes(new[i:i + 2], "big") for i in range(0, len(new), 2)])
                        served = all(word ^ int.from_bytes(old[:2], "big") < p for word in words)
                        self.assertEqual(old[:2] == new[:2] if served else touched, True)
                        self.assertTrue(touched or old == new)
                    symbols = after
        self.met(0)

    def test_masks_by_counting(self):
        """Each half of the masks is gone through: the mask is in the one with fewer pairs that give no symbol, the lower if as many."""
        random = Random(9)
        for p in (65521, 57179, 40009, 34819):
            for words in ([], [65535], [0, 65535, 40000], [random.randrange(65536) for _ in range(min(6, carry.group_words(p)))]):
                masks = range(65536)
                bad = [sum(word ^ mask >= p for word in [0, *words]) for mask in masks]
                while len(masks) > 1:
                    lower, upper = masks[:len(masks) // 2], masks[len(masks) // 2:]
                    masks = lower if sum(bad[m] for m in lower) <= sum(bad[m] for m in upper) else upper
                self.assertEqual(carry.mask_of(p, words), masks[0])

    def test_every_group_size_leaves_a_mask(self):
        """Each word and the mask itself rule out 65,536 - p masks at most, so 4,096 are left."""
        for n in range(2, 256):
            p = choose.prime_for(n)
            words = carry.group_words(p)
            self.assertGreaterEqual(words, 6)
            self.assertGreaterEqual(65536 - (words + 1) * (65536 - p), 4096)

    def test_bytes_as_they_are(self):
        for data in (b"", b"a", b"any bytes"):
            self.assertEqual(self.result(carry.carried_len([2, 11, 15, 10], len(data))), len(data))
            self.assertEqual(self.result(carry.carry_in([2, 11, 15, 10], data, len(data))), data)
            self.assertEqual(self.result(carry.carry_out([2, 11, 15, 10], data, len(data))), data)
            self.refused(8, carry.carry_in([2, 11, 15, 10], data, len(data) + 1))
            self.refused(8, carry.carry_out([2, 11, 15, 10], data, len(data) + 1))

    def test_numbers(self):
        record = self.RECORDS[0]
        for none in ([1, 7, 3, 6, 3], [3, 1, 1, 0, 16, 4, 1]):
            self.refused(18, carry.carried_len(none, 2))
            self.refused(18, carry.carry_in(none, b"ab", 4))
            self.refused(18, carry.carry_out(none, bytes(4), 2))
        self.refused(5, carry.carried_len([1, 7, 2, 6, 3], 1))
        self.refused(8, carry.carried_len(record, 2**62 + 1))
        self.refused(8, carry.carried_len([2, 11, 15, 10], 2**62 + 1))
        self.refused(8, carry.carry_out(record, b"\0\0", 0))
        self.refused(8, carry.carry_out(record, b"\xff\xff", 2))
        self.refused(11, carry.carry_out(record, b"\xff\xf1\0\0", 2))
        self.refused(11, carry.carry_out(record, b"\0\0\xff\xff", 2))
        self.refused(18, carry.carry_change([1, 7, 3, 6, 3], 2, 9, b"a", bytes(3)))
        self.refused(8, carry.carry_change(record, 2, 9, b"a", bytes(3)))
        self.refused(9, carry.carry_change(record, 1, 1, b"a", b"\xff\xff\0\0"))
        self.refused(11, carry.carry_change(record, 2, 0, b"a", b"\0\0\xff\xff"))
        self.met(5, 8, 9, 11, 18)


class Choose(Numbers):
    def test_every_n_and_k(self):
        """Every n from 2 to 255 has an accepted record that carries bytes, whatever k is."""
        for n in range(2, 256):
            for k in {1, 2, n // 2 or 1, n - 1 or 1, n}:
                record = self.result(choose.choose(n, k, 7))
                number, *rest = [read(record)] if isinstance(read(record), int) else [0, *read(record)]
                self.assertEqual((number, *rest[2:]), (0, n, k))
                self.assertEqual(record[0], 2 if 255 % n == 0 else 3)
                self.assertNotEqual(carry.carried_len(record, 2)[0], 18)

    def test_best_prime(self):
        """No greater prime below 65,536 has a symbol of order n."""
        for n in (2, 4, 6, 7, 12, 253, 254):
            p = choose.prime_for(n)
            self.assertFalse([q for q in range(p + 1, 65536) if (q - 1) % n == 0 and all(q % d for d in range(2, 256))])

    def test_numbers(self):
        for n, k in ((0, 0), (1, 1), (256, 3), (2**32 - 1, 1), (6, 0), (6, 7)):
            self.refused(4, choose.choose(n, k, 0))
        self.refused(8, choose.choose(6, 5, 6))
        self.refused(8, choose.choose(6, 5, 8))
        self.met(4, 8)


def near_by_search(plan, nodes, symbols):
    """All messages near enough, by trying every one."""
    found = []
    for message in product(range(plan.field.size), repeat=plan.k):
        rows = [plan.field.row([x]) for x in message]
        word = [listed.combine(plan.field, plan.column(j), rows)[0] for j in nodes]
        wrong = [int(x != y) for x, y in zip(word, symbols)]
        if sum(wrong) <= (len(nodes) - plan.k) // 2:
            found.append((list(message), wrong))
    return found


class Listed(Numbers):
    def test_by_search(self):
        """Every message is tried: at most one is near enough, and that is the one that is given."""
        random = Random(5)
        for record in [r for r in SMALL if r != [2, 214, 3, 2]]:
            plan = plan_of_record(record)
            for _ in range(40):
                s = random.randint(plan.k, plan.n)
                nodes = random.sample(range(plan.n), s)
                message = some_symbols(random, plan, plan.k)
                held = list(plan.symbols(listed_shares(plan, encoded(record, plan, 1, message), nodes)))
                for at in random.sample(range(s), random.randint(0, min(s, (s - plan.k) // 2 + 1))):
                    held[at] = random.randrange(plan.field.size)
                found = near_by_search(plan, nodes, held)
                self.assertLessEqual(len(found), 1)
                answer = self.number(listed.correct_listed(record, 1, nodes, plan.bytes(held), plan.size(plan.k), s))
                want = (0, (sum(found[0][1]), plan.bytes(found[0][0]), found[0][1])) if found else (14, None)
                self.assertEqual(answer, want, (record, nodes, held))
        self.met(0, 14)

    def test_agrees(self):
        """With k nodes it is Recover, with all n it counts what Correct alters, in blocks of several lanes too."""
        random = Random(6)
        for record in BLOCKS:
            plan = plan_of_record(record)
            for lanes in (1, 3):
                shares = encoded(record, plan, lanes, some_symbols(random, plan, plan.k * lanes))
                nodes = random.sample(range(plan.n), plan.k)
                any_shares = some_symbols(random, plan, plan.k * lanes)
                size = plan.size(plan.k * lanes)
                number, message = recover(record, lanes, nodes, any_shares, size)
                self.assertEqual(listed.correct_listed(record, lanes, nodes, any_shares, size, plan.k), (0, (0, message, [0] * plan.k)))
                damaged = list(plan.symbols(shares))
                for t, _ in product(range(lanes), range((plan.n - plan.k) // 2)):
                    damaged[t * plan.n + random.randrange(plan.n)] = random.randrange(plan.field.size)
                every = list(range(plan.n))
                number, result = listed.correct_listed(record, lanes, every, plan.bytes(damaged), size, plan.n)
                self.assertEqual((number, result[0]), (0, correct(record, lanes, plan.bytes(damaged))[1][0]))
                self.assertEqual(encoded(record, plan, lanes, result[1]), shares)
                rows = zip(lanes_of(damaged, plan.n), lanes_of(list(plan.symbols(shares)), plan.n))
                self.assertEqual([sum(column) for column in zip(*([x != y for x, y in zip(*row)] for row in rows))], result[2])

    def test_numbers(self):
        record, shares = [1, 7, 3, 6, 3], bytes([6, 1, 1, 3, 6])
        nodes = [0, 1, 2, 3, 4]
        good = (record, 1, nodes, shares, 3, 5)
        self.assertEqual(self.result(listed.correct_listed(*good)), (0, bytes([1, 0, 2]), [0] * 5))
        self.refused(7, listed.correct_listed(record, 0, [9], b"", 0, 0))
        self.refused(8, listed.correct_listed(record, 1, [9, 9], b"\7\7", 3, 2))
        self.refused(8, listed.correct_listed(record, 1, [9] * 7, b"\7" * 7, 3, 7))
        self.refused(8, listed.correct_listed(record, 1, nodes, shares[1:], 3, 5))
        self.refused(8, listed.correct_listed(record, 1, nodes, shares, 2, 5))
        self.refused(8, listed.correct_listed(record, 1, nodes, shares, 3, 6))
        self.refused(9, listed.correct_listed(record, 1, [0, 0, 2, 3, 6], shares, 3, 5))
        self.refused(10, listed.correct_listed(record, 1, [0, 0, 2, 3, 4], b"\7" * 5, 3, 5))
        self.refused(11, listed.correct_listed(record, 1, nodes, b"\7" * 5, 3, 5))
        self.refused(14, listed.correct_listed(record, 1, nodes, bytes([6, 1, 0, 0, 0]), 3, 5))
        self.met(0, 7, 8, 9, 10, 11, 14)


class Traces(Numbers):
    def test_repairs(self):
        """From what the others send of an encoding the target's share is that encoding's, whichever nodes are missing."""
        random = Random(7)
        for record in TRACES:
            plan = plan_of_record(record)
            for lanes, missing in ((1, 0), (9, min(3, plan.n - plan.k - 16)), (8, plan.n - plan.k - 16)):
                target, *gone = random.sample(range(plan.n), missing + 1)
                self.repair(record, plan, lanes, target, gone, random)

    def test_every_target(self):
        random = Random(8)
        for target in range(17):
            self.repair([2, 15, 17, 1], plan_of_record([2, 15, 17, 1]), 3, target, [], random)

    def repair(self, record, plan, lanes, target, gone, random):
        shares = encoded(record, plan, lanes, some_symbols(random, plan, plan.k * lanes))
        by_node = [shares[j::plan.n] for j in range(plan.n)]
        b, spare = self.result(traces.repair_plan(record, len(gone)))
        self.assertEqual(traces.repair_plan(record, len(gone) + spare), (0, (b, 0)))
        self.assertNotEqual(traces.repair_plan(record, len(gone) + spare + 1)[1], (b, 0))
        size, rows = b * ((lanes + 7) // 8), b""
        for j in range(plan.n):
            if j != target and j not in gone:
                rows += self.result(traces.repair_bits(record, lanes, j, target, gone, by_node[j], size))
        self.assertEqual(len(rows), (plan.n - 1 - len(gone)) * size)
        self.assertEqual(self.result(traces.repair_share(record, lanes, target, gone, rows, lanes)), by_node[target])

    def test_fields(self):
        """The trace is additive, lands in the subfield and takes every value there equally often; elements are named by their lowest bits."""
        for b in (1, 2, 4):
            elements = traces.elements(b)
            self.assertEqual(sorted(elements), list(range(2**b)))
            values = [traces.trace(a, b) for a in range(256)]
            self.assertEqual({a: values.count(a) for a in values}, {a: 2 ** (8 - b) for a in elements.values()})
            self.assertTrue(all(values[x] ^ values[y] == values[x ^ y] for x in range(256) for y in (1, 2, 77, 254)))

    def test_planes(self):
        """Bit i of a plane is bit i mod 8 of byte i/8; the plane of the lowest bits comes first."""
        digits = [1, 0, 2, 0, 0, 0, 0, 0, 0, 3]
        self.assertEqual(traces.packed(digits, 2), bytes([1, 2, 4, 2]))
        self.assertEqual(traces.unpacked(bytes([1, 2 + 252, 4, 2 + 252]), 2, 10), digits)

    def test_moved(self):
        """The bits that are moved for a symbol where as many nodes as may be missing are left out."""
        for record, moved in (([2, 2, 255, 120], 247), ([2, 2, 255, 51], 178), ([2, 2, 255, 127], 254)):
            b, spare = self.result(traces.repair_plan(record, 0))
            self.assertEqual(b * (254 - spare), moved)

    def test_numbers(self):
        record, share = [2, 15, 17, 1], b"a"
        self.refused(17, traces.repair_plan(record, 1))
        self.refused(17, traces.repair_plan([1, 7, 3, 6, 3], 0))
        self.refused(17, traces.repair_plan([2, 11, 15, 1], 0))
        self.refused(4, traces.repair_plan([2, 15, 17, 0], 0))
        self.refused(7, traces.repair_bits(record, 0, 17, 17, [], b"", 0))
        self.refused(8, traces.repair_bits(record, 1, 17, 17, [], b"", 4))
        self.refused(8, traces.repair_bits(record, 1, 17, 17, [], share, 3))
        for node, target, gone in ((17, 0, []), (0, 17, []), (3, 3, [])):
            self.refused(9, traces.repair_bits(record, 1, node, target, gone, share, 4))
        wide = [2, 3, 51, 1]
        for node, target, gone in ((4, 3, [4]), (4, 3, [3]), (4, 3, [51]), (4, 3, [51, 51])):
            self.refused(9, traces.repair_bits(wide, 1, node, target, gone, share, 4))
        self.refused(10, traces.repair_bits(wide, 1, 4, 3, [5, 5], share, 4))
        self.refused(17, traces.repair_bits(record, 1, 4, 3, [5], share, 0))
        self.refused(8, traces.repair_bits(record, 1, 4, 3, [5], share, 4))
        self.refused(7, traces.repair_share(record, 0, 17, [], b"", 0))
        self.refused(8, traces.repair_share(record, 1, 17, [], bytes(63), 1))
        self.refused(8, traces.repair_share(record, 1, 17, [], bytes(64), 2))
        self.refused(9, traces.repair_share(record, 1, 17, [], bytes(64), 1))
        self.refused(9, traces.repair_share(wide, 1, 3, [3], bytes(4 * 49), 1))
        self.refused(10, traces.repair_share(wide, 1, 3, [5, 5], bytes(4 * 48), 1))
        self.refused(17, traces.repair_share([1, 7, 3, 6, 3], 1, 3, [], b"", 1))
        self.met(4, 7, 8, 9, 10, 17)


if __name__ == "__main__":
    unittest.main()
