"""What a number that turned a record away means for this record, in words, and what to do.

The words rest on the reference implementation (tests/reference), and so do the roots and records that they name; the number
itself is what the proved program gave. Names and texts of the numbers are those of the package for Python, which a test holds
to include/balanced.h.
"""
import os
import runpy
import sys
from itertools import chain, islice

TOP = os.path.dirname(os.path.dirname(os.path.abspath(__file__)))
ERRORS = runpy.run_path(os.path.join(TOP, "bindings", "python", "balanced", "errors.py"))["ERRORS"]
# in front: the package for Python is called balanced, too, and may be installed
sys.path.insert(0, os.path.join(TOP, "tests", "reference"))
from balanced import field_of, is_prime, order, pairs  # noqa: E402

FORMS = {1: "1 p α n k", 2: "2 α n k", 3: "3 p p α α n k"}
LENGTHS = {1: "five", 2: "four", 3: "seven"}
PRIMES = {1: (3, 251), 3: (257, 65521)}
SHOWN = 8


def fields(record):
    """p, which is 0 for kind 2, α, n and k of a record whose body has its kind's length."""
    if record[0] == 3:
        return [*pairs(record[1:5]), *record[5:]]
    return list(record[1:]) if record[0] == 1 else [0, *record[1:]]


def text(record):
    """The record as it is written: in kind 3 with p and α as numbers."""
    kind, (p, root, n, k) = record[0], fields(record)
    return " ".join(map(str, [kind, root, n, k] if kind == 2 else [kind, p, root, n, k]))


def listed(numbers):
    """The first few of a list, in words."""
    head = list(islice(numbers, SHOWN + 1))
    return ", ".join(map(str, head)) if len(head) <= SHOWN else ", ".join(map(str, head[:SHOWN])) + " and more"


def power(field, a, e):
    result = 1
    for digit in f"{e:b}":
        result = field.times(result, result)
        if digit == "1":
            result = field.times(result, a)
    return result


def roots(p, n):
    """The symbols of order n, rising."""
    field = field_of(p)
    return (a for a in range(1, field.size) if power(field, a, n) == 1 and order(field, a) == n)


def record_with(n, k):
    """A record that has n nodes and k symbols: of bytes where there is one, else over the least prime."""
    if 255 % n == 0:
        return bytes([2, next(roots(0, n)), n, k])
    p = next(p for p in chain(range(3, 252), range(257, 65522)) if (p - 1) % n == 0 and is_prime(p))
    root = next(roots(p, n))
    return bytes([1, p, root, n, k] if p < 256 else [3, *divmod(p, 256), *divmod(root, 256), n, k])


def kind_words(record):
    if not record:
        return "the record is empty. It starts with its kind: 1, 2 or 3."
    return f"the record starts with {record[0]}, and a kind is 1 (a prime up to 251), 2 (bytes) or 3 (a prime from 257 on)."


def body_words(record):
    kind = record[0]
    words = f"a record of kind {kind} has {LENGTHS[kind]} bytes, {FORMS[kind]}, and this one has {len(record)}."
    if kind == 3:
        words += " p and α may stand as one number each where p is above 255: RECORD='3 257 16 4 2'."
    return words


def field_words(record):
    p = fields(record)[0]
    least, greatest = PRIMES[record[0]]
    if not least <= p <= greatest:
        return f"p = {p} is not from {least} to {greatest:,}, as a record of kind {record[0]} has it."
    factor = next(q for q in range(2, p) if p % q == 0)
    near = [next((q for q in way if is_prime(q)), None) for way in (range(p, least - 1, -1), range(p, greatest + 1))]
    return f"p = {p} is {factor} · {p // factor} and no prime. The nearest primes are {' and '.join(str(q) for q in near if q)}."


def size_words(record):
    n, k = fields(record)[2:]
    if n < 2:
        return f"n = {n}, and a store has at least 2 nodes."
    return "k = 0, and a message has at least 1 symbol." if k == 0 else f"k = {k} is above n = {n}, and k runs from 1 to n."


def order_words(p, root, n):
    """What is wrong with the root."""
    where = f"modulo {p}" if p else "among bytes"
    if p and root >= p:
        return f"{root} is no symbol: symbols run from 0 to p−1 = {p - 1}"
    if root == 0:
        return f"0 has no order, and α must have order n = {n}"
    return f"{root} has order {order(field_of(p), root)} {where}, and α must have order n = {n}"


def nearest_divisors(whole, n):
    """The divisors of a number that are nearest to n, from 2 to 255 and rising."""
    divisors = [e for e in range(2, min(whole, 255) + 1) if whole % e == 0]
    return ", ".join(map(str, sorted(sorted(divisors, key=lambda e: abs(e - n))[:SHOWN])))


def root_words(record):
    p, root, n, k = fields(record)
    whole = p - 1 if p else 255
    words = f"{order_words(p, root, n)}. "
    if whole % n == 0:
        return words + f"These α have it: {listed(roots(p, n))}."
    which = f"p−1 = {whole}" if p else "255"
    return words + f"None has, for n must divide {which}, as {nearest_divisors(whole, n)} do. With n = {n} and k = {k} there is RECORD='{text(record_with(n, k))}'."


def many_words(record):
    p, _, _, k = fields(record)
    size = p or 256
    most = max(e for e in range(17) if size ** e <= 65536)
    return f"there are {size}^{k} messages, and at most 65,536 are counted: k may be up to {most} over this field."


WORDS = {1: kind_words, 2: body_words, 3: field_words, 4: size_words, 5: root_words, 16: many_words}


def words_for(number, record):
    """A sentence for a number that a program of records gives."""
    error = ERRORS[number]
    return f"{error.name}: {WORDS[number](record) if number in WORDS else error.text + '.'}"
