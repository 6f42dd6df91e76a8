"""The balanced image store by its definitions, written from the documents alone and sharing nothing with the crates.

Every entry of the generator is the product of the differences itself, the shifts are taken by going round, a message is
recovered by solving the linear system of the listed nodes, and a lane is a word if the polynomial through its first k
symbols has the other symbols as values too. The word near to a lane is found by Berlekamp and Welch's linear system. A
row has one symbol for each lane. A message stands row after row, shares stand lane after lane. In buffers a symbol of a
field of more than 256 elements is two bytes, the high one first.
"""
from functools import lru_cache, reduce
from itertools import product
from math import gcd
from operator import xor


class OneByte:
    """Rows of a field whose symbols are bytes: `bytes` and tables of products."""
    width = 1
    row = bytes

    def multiple(self, c, row):
        return row.translate(self.products[c])


class TwoBytes:
    """Rows of any other field: tuples."""
    width = 2
    row = tuple

    def multiple(self, c, row):
        return tuple(self.times(c, x) for x in row)


class PrimeField:
    def __init__(self, p):
        self.size = p

    def plus(self, a, b):
        return (a + b) % self.size

    def minus(self, a, b):
        return (a - b) % self.size

    def times(self, a, b):
        return a * b % self.size

    def total(self, rows):
        """The sum of the rows, lane by lane."""
        return self.row(sum(column) % self.size for column in zip(*rows))


class SmallPrimeField(PrimeField, OneByte):
    def __init__(self, p):
        super().__init__(p)
        self.products = [bytes(a * b % p for b in range(256)) for a in range(p)]


class LargePrimeField(PrimeField, TwoBytes):
    pass


class Field256(OneByte):
    size = 256
    modulus = 0x11D

    def __init__(self):
        self.products = [bytes(self.product(a, b) for b in range(256)) for a in range(256)]

    def product(self, a, b):
        # the product of the polynomials, then the rest of its division by the modulus
        product = 0
        for bit in range(8):
            if b >> bit & 1:
                product ^= a << bit
        for bit in range(14, 7, -1):
            if product >> bit & 1:
                product ^= self.modulus << (bit - 8)
        return product

    def plus(self, a, b):
        return a ^ b

    def minus(self, a, b):
        return a ^ b

    def times(self, a, b):
        return self.products[a][b]

    def total(self, rows):
        # all lanes at a time, as the digits of one long number
        return reduce(xor, (int.from_bytes(row, "big") for row in rows)).to_bytes(len(rows[0]), "big")


@lru_cache(maxsize=None)
def field_of(p):
    """The field of p elements, or of 256 for 0."""
    return Field256() if p == 0 else SmallPrimeField(p) if p < 256 else LargePrimeField(p)


def combine(field, coefficients, rows):
    """The sum of the rows, each times its coefficient."""
    return field.total([field.multiple(c, row) for c, row in zip(coefficients, rows)])


def inverse(field, a):
    return next(b for b in range(field.size) if field.times(a, b) == 1)


def inverse_matrix(field, matrix):
    """The inverse, by Gauss and Jordan's elimination over the matrix with the identity beside it."""
    size = len(matrix)
    rows = [field.row([*row, *(int(i == j) for j in range(size))]) for i, row in enumerate(matrix)]
    for c in range(size):
        pivot = next(i for i in range(c, size) if rows[i][c])
        rows[c], rows[pivot] = rows[pivot], rows[c]
        rows[c] = field.multiple(inverse(field, rows[c][c]), rows[c])
        for i in range(size):
            if i != c and rows[i][c]:
                rows[i] = combine(field, [1, field.minus(0, rows[i][c])], [rows[i], rows[c]])
    return [row[size:] for row in rows]


def null_vector(field, matrix, width):
    """A vector other than zero that every row takes to zero, or None, by Gauss and Jordan's elimination."""
    rows, pivots = [field.row(row) for row in matrix], []
    for c in range(width):
        at = len(pivots)
        pivot = next((i for i in range(at, len(rows)) if rows[i][c]), None)
        if pivot is None:
            # column c is a sum of the columns of the pivots
            vector = [0] * width
            vector[c] = 1
            for i, column in enumerate(pivots):
                vector[column] = field.minus(0, rows[i][c])
            return vector
        rows[at], rows[pivot] = rows[pivot], rows[at]
        rows[at] = field.multiple(inverse(field, rows[at][c]), rows[at])
        for i in range(len(rows)):
            if i != at and rows[i][c]:
                rows[i] = combine(field, [1, field.minus(0, rows[i][c])], [rows[i], rows[at]])
        pivots.append(c)
    return None


def order(field, a):
    """The least e from 1 up with a^e = 1, or None."""
    x = a
    for e in range(1, field.size):
        if x == 1:
            return e
        x = field.times(x, a)
    return None


@lru_cache(maxsize=None)
def is_prime(p):
    return p >= 2 and all(p % q for q in range(2, p))


def pairs(buffer):
    """The numbers of two bytes, high byte first."""
    return [high * 256 + low for high, low in zip(buffer[0::2], buffer[1::2])]


def read(record):
    """The number that turns the record away, or (p, root, n, k), where p is 0 for kind 2."""
    if not record or record[0] not in (1, 2, 3):
        return 1
    if len(record) != {1: 5, 2: 4, 3: 7}[record[0]]:
        return 2
    p, root, n, k = {1: record[1:], 2: [0, *record[1:]], 3: [*pairs(record[1:5]), *record[5:]]}[record[0]]
    least, greatest = {1: (3, 251), 2: (0, 0), 3: (257, 65521)}[record[0]]
    if record[0] != 2 and not (least <= p <= greatest and is_prime(p)):
        return 3
    field = field_of(p)
    if n < 2 or k == 0 or k > n:
        return 4
    if root >= field.size or order(field, root) != n:
        return 5
    return p, root, n, k


def even_shifts(n, k, d):
    """Going round 0 to n - 1: take k/g places, skip (d - 1)/g, and repeat."""
    g = gcd(k, n)
    taken, place = [], 0
    while place < n:
        for _ in range(k // g):
            taken.append(place)
            place += 1
        for _ in range((d - 1) // g):
            place += 1
    return taken


def laid_nodes(n, k, d):
    """The nodes at which rows begin that are laid end to end; m of them come round, and the next begins one node further."""
    m = n // gcd(n, d)
    return [(r // m + r % m * d) % n for r in range(k)]


def shifts_of(n, k, d):
    """Lemma 2's shifts where the nodes can share evenly, and else those of rows laid end to end."""
    if k * d % n == 0:
        return even_shifts(n, k, d)
    return [-node % n for node in laid_nodes(n, k, d)]


def first_node(row):
    """The node at which the entries that are not zero begin, going round; 0 where all are not zero."""
    return next((j for j in range(len(row)) if row[j] and not row[j - 1]), 0)


class Plan:
    """The plan of an accepted record; `entries[r][j]` is the generator."""

    def __init__(self, p, root, n, k):
        self.field = field = field_of(p)
        self.n, self.k, self.d = n, k, n - k + 1
        self.low, self.high = k * self.d // n, -(-k * self.d // n)
        self.shifts = shifts_of(n, k, self.d)
        self.powers = [1]
        for _ in range(n - 1):
            self.powers.append(field.times(self.powers[-1], root))
        at_power = [self.base_polynomial(x) for x in self.powers]
        self.entries = [[at_power[(j + s - self.d) % n] for j in range(n)] for s in self.shifts]
        self.firsts = [first_node(row) for row in self.entries]

    def base_polynomial(self, x):
        """The product of (x - root^i) for i from 0 to k - 2."""
        product = 1
        for i in range(self.k - 1):
            product = self.field.times(product, self.field.minus(x, self.powers[i]))
        return product

    def column(self, j):
        return [row[j] for row in self.entries]

    def monomials(self, j):
        """root^(j·e) for e from 0 to k - 1: the coefficients that a polynomial's value at root^j takes."""
        return [self.powers[j * e % self.n] for e in range(self.k)]

    @lru_cache(maxsize=None)
    def interpolation(self):
        """What takes the values at the first k nodes to the polynomial's coefficients."""
        return inverse_matrix(self.field, [self.monomials(j) for j in range(self.k)])

    @lru_cache(maxsize=None)
    def decoding(self):
        """What takes the symbols of the first k nodes to the message."""
        return inverse_matrix(self.field, [self.column(j) for j in range(self.k)])

    def is_word(self, lane):
        """Whether the polynomial through the first k symbols has the others as values too."""
        symbols = [self.field.row([x]) for x in lane]
        coefficients = [combine(self.field, line, symbols[:self.k]) for line in self.interpolation()]
        return all(combine(self.field, self.monomials(j), coefficients) == symbols[j] for j in range(self.n))

    def nearest(self, lane):
        """The word that differs from the lane at no more than (n - k)/2 nodes, or None, by Berlekamp and Welch.

        If there is one, the polynomials E of degree up to t and N of degree below k + t with N = lane·E at every node, not both
        zero, have N = f·E, where f is the word's polynomial. So E is zero wherever the lane is wrong, and the other nodes, of
        which there are k, give the word.
        """
        field, most = self.field, (self.n - self.k) // 2
        times = [self.power_row(j, most + 1, field.minus(0, lane[j])) for j in range(self.n)]
        equations = [[*self.power_row(j, self.k + most, 1), *times[j]] for j in range(self.n)]
        solution = null_vector(field, equations, self.k + 2 * most + 1)
        if solution is None:
            return None
        errors = [field.row([c]) for c in solution[self.k + most:]]
        left = [j for j in range(self.n) if combine(field, self.power_row(j, most + 1, 1), errors)[0]][:self.k]
        if len(left) < self.k:
            return None
        message = message_of(self, left, self.bytes([lane[j] for j in left]))
        word = [combine(field, self.column(j), message)[0] for j in range(self.n)]
        return word if sum(x != y for x, y in zip(word, lane)) <= most else None

    def power_row(self, j, count, scale):
        """scale·root^(j·e) for e below count."""
        return [self.field.times(scale, self.powers[j * e % self.n]) for e in range(count)]

    def message(self, lane):
        """The message whose encoding has the lane's symbols at the first k nodes."""
        symbols = [self.field.row([x]) for x in lane[:self.k]]
        return [combine(self.field, line, symbols)[0] for line in self.decoding()]


    def size(self, count):
        """The bytes of so many symbols."""
        return count * self.field.width

    def symbols(self, buffer):
        """The symbols of a buffer."""
        return bytes(buffer) if self.field.width == 1 else tuple(pairs(buffer))

    def bytes(self, symbols):
        """The buffer of the symbols."""
        return bytes(symbols) if self.field.width == 1 else b"".join(x.to_bytes(2, "big") for x in symbols)


@lru_cache(maxsize=None)
def plan_of(*accepted):
    return Plan(*accepted)


def rows_of(symbols, lanes):
    """The rows of symbols that stand row after row."""
    return [symbols[at:at + lanes] for at in range(0, len(symbols), lanes)]


def lanes_of(shares, nodes):
    """The lanes of symbols that stand lane after lane, so many nodes in each."""
    return [shares[at:at + nodes] for at in range(0, len(shares), nodes)]


def shares_of(plan, shares, nodes):
    """What each node holds, a row for each, of a buffer that stands lane after lane."""
    return [plan.field.row(row) for row in zip(*lanes_of(plan.symbols(shares), nodes))]


def lane_after_lane(plan, rows):
    return plan.bytes([x for lane in zip(*rows) for x in lane])


def listed_shares(plan, shares, nodes):
    """What the listed nodes hold, lane after lane, of all shares."""
    rows = shares_of(plan, shares, plan.n)
    return lane_after_lane(plan, [rows[j] for j in nodes])


def above(plan, symbols):
    """Whether one of the numbers is no symbol."""
    return any(x >= plan.field.size for x in symbols)


def symbols_bad(plan, buffer):
    return above(plan, plan.symbols(buffer))


def call(record, faults, work):
    """The answer of a call: the number of the first condition that holds, or what it works out.

    `faults(plan)` yields (number, condition) in rising order, and each condition may count on those before it.
    """
    accepted = read(record)
    if isinstance(accepted, int):
        return accepted, None
    plan = plan_of(*accepted)
    for number, holds in faults(plan):
        if holds:
            return number, None
    return 0, work(plan)


def build_plan(record):
    return call(record, lambda plan: [], lambda plan: plan)


def lanes_bad(lanes):
    return not 1 <= lanes <= 4096


def encode(record, lanes, message, room):
    """(number, shares)"""

    def faults(plan):
        yield 7, lanes_bad(lanes)
        yield 8, len(message) != plan.size(plan.k * lanes) or room != plan.size(plan.n * lanes)
        yield 11, symbols_bad(plan, message)

    def work(plan):
        rows = rows_of(plan.symbols(message), lanes)
        return lane_after_lane(plan, [combine(plan.field, plan.column(j), rows) for j in range(plan.n)])

    return call(record, faults, work)


def update(record, lanes, symbol, lane, old, new, shares):
    """(number, (count, shares afterwards))"""

    def faults(plan):
        yield 7, lanes_bad(lanes)
        yield 8, len(shares) != plan.size(plan.n * lanes)
        yield 9, symbol >= plan.k or lane >= lanes
        word = lanes_of(plan.symbols(shares), plan.n)[lane]
        yield 11, above(plan, [old, new, *word])
        yield 12, not plan.is_word(word)
        yield 13, plan.message(word)[symbol] != old

    def work(plan):
        field, before = plan.field, plan.symbols(shares)
        after = list(before)
        difference = field.minus(new, old)
        for j in range(plan.n):
            at = lane * plan.n + j
            after[at] = field.plus(before[at], field.times(difference, plan.entries[symbol][j]))
        return sum(a != b for a, b in zip(before, after)), plan.bytes(after)

    return call(record, faults, work)


def listed_faults(plan, lanes, nodes, shares, room_bad, targets):
    yield 7, lanes_bad(lanes)
    yield 8, len(nodes) != plan.k or len(shares) != plan.size(plan.k * lanes) or room_bad
    yield 9, any(j >= plan.n for j in [*nodes, *targets])
    yield 10, len(set(nodes)) < len(nodes)
    yield 11, symbols_bad(plan, shares)


def message_of(plan, nodes, shares):
    """The rows of the message, by the inverse of the generator's columns at the nodes."""
    matrix = inverse_matrix(plan.field, [plan.column(j) for j in nodes])
    rows = shares_of(plan, shares, plan.k)
    return [combine(plan.field, line, rows) for line in matrix]


def recover(record, lanes, nodes, shares, room):
    """(number, message)"""

    def faults(plan):
        return listed_faults(plan, lanes, nodes, shares, room != plan.size(plan.k * lanes), [])

    return call(record, faults, lambda plan: b"".join(plan.bytes(row) for row in message_of(plan, nodes, shares)))


def rebuild(record, lanes, nodes, shares, target, room):
    """(number, the target's share): the recovered message encoded anew."""

    def faults(plan):
        return listed_faults(plan, lanes, nodes, shares, room != plan.size(lanes), [target])

    def work(plan):
        return plan.bytes(combine(plan.field, plan.column(target), message_of(plan, nodes, shares)))

    return call(record, faults, work)


def wrong_lanes(plan, shares):
    """The lanes that are no words, all at a time."""
    rows = shares_of(plan, shares, plan.n)
    coefficients = [combine(plan.field, line, rows[:plan.k]) for line in plan.interpolation()]
    values = (combine(plan.field, plan.monomials(j), coefficients) for j in range(plan.n))
    return {t for row, value in zip(rows, values) if row != value for t in range(len(row)) if row[t] != value[t]}


def belongs(record, lanes, shares):
    """(number, the smallest lane that is no word, or None)"""

    def faults(plan):
        yield 7, lanes_bad(lanes)
        yield 8, len(shares) != plan.size(plan.n * lanes)
        yield 11, symbols_bad(plan, shares)

    return call(record, faults, lambda plan: min(wrong_lanes(plan, shares), default=None))


def correct(record, lanes, shares):
    """(number, (count, shares afterwards))"""
    words = {}

    def faults(plan):
        yield 7, lanes_bad(lanes)
        yield 8, len(shares) != plan.size(plan.n * lanes)
        yield 11, symbols_bad(plan, shares)
        before = lanes_of(plan.symbols(shares), plan.n)
        words.update((t, plan.nearest(before[t])) for t in wrong_lanes(plan, shares))
        yield 14, None in words.values()

    def work(plan):
        before = plan.symbols(shares)
        after = [x for t, lane in enumerate(lanes_of(before, plan.n)) for x in words.get(t, lane)]
        return sum(a != b for a, b in zip(before, after)), plan.bytes(after)

    return call(record, faults, work)


def find_update(record, before, after):
    """(number, "unchanged", (symbol, amount) or None), by trying every symbol and amount"""

    def faults(plan):
        yield 8, len(before) != plan.size(plan.n) or len(after) != plan.size(plan.n)
        yield 11, symbols_bad(plan, before + after)

    def leads(plan, symbol, amount):
        places = zip(plan.symbols(before), plan.entries[symbol], plan.symbols(after))
        return all(plan.field.plus(x, plan.field.times(amount, entry)) == y for x, entry, y in places)

    def work(plan):
        if before == after:
            return "unchanged"
        tried = product(range(plan.k), range(plan.field.size))
        return next((update for update in tried if leads(plan, *update)), None)

    return call(record, faults, work)


def words_at(plan, lane, node):
    """The symbols with which the lane is a word when they stand at the node, by trying every one"""
    size = plan.field.size
    rows = [plan.field.row([x] * size) for x in lane]
    rows[node] = plan.field.row(range(size))
    coefficients = [combine(plan.field, line, rows[:plan.k]) for line in plan.interpolation()]
    values = [combine(plan.field, plan.monomials(j), coefficients) for j in range(plan.n)]
    return [x for x in range(size) if all(row[x] == value[x] for row, value in zip(rows, values))]


def single_mends(record, lane, nodes_room, symbols_room):
    """(number, (the nodes and the new symbols whose single change makes the lane a word))"""

    def faults(plan):
        yield 8, len(lane) != plan.size(plan.n) or nodes_room != plan.n or symbols_room != plan.size(plan.n)
        yield 11, symbols_bad(plan, lane)

    def work(plan):
        symbols = plan.symbols(lane)
        if symbols[0] in words_at(plan, symbols, 0):
            return b"", b""
        changes = [(node, x) for node in range(plan.n) for x in words_at(plan, symbols, node)]
        return bytes(node for node, _ in changes), plan.bytes([x for _, x in changes])

    return call(record, faults, work)


def rearrange_faults(plan, lanes, source, room):
    yield 7, lanes_bad(lanes)
    yield 8, len(source) != plan.size(plan.n * lanes) or room != plan.size(plan.n * lanes)


def to_lanes(record, lanes, by_node, room):
    """(number, the shares lane after lane)"""
    return call(record, lambda plan: rearrange_faults(plan, lanes, by_node, room), lambda plan: lane_after_lane(plan, rows_of(plan.symbols(by_node), lanes)))


def to_nodes(record, lanes, by_lane, room):
    """(number, the shares node after node)"""
    return call(record, lambda plan: rearrange_faults(plan, lanes, by_lane, room), lambda plan: b"".join(plan.bytes(row) for row in shares_of(plan, by_lane, plan.n)))


def weights(record, room):
    """(number, how many messages have a word with w nodes that are not zero, w from 0 to n), by going through all messages"""

    def faults(plan):
        yield 8, room != plan.n + 1
        yield 16, plan.field.size ** plan.k > 65536

    def work(plan):
        # all messages at a time, one in each lane
        messages = list(product(range(plan.field.size), repeat=plan.k))
        rows = [plan.field.row(message[r] for message in messages) for r in range(plan.k)]
        words = zip(*(combine(plan.field, plan.column(j), rows) for j in range(plan.n)))
        counts = [0] * (plan.n + 1)
        for word in words:
            counts[plan.n - word.count(0)] += 1
        return counts

    return call(record, faults, work)
