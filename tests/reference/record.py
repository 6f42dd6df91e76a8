#!/usr/bin/env python3
"""record.py [N K]: prints a record for n nodes of which k are needed that carries bytes, and what it costs: the writes and reads that compare.py
counts in its generator, the bytes that are stored for so many bytes of an image, and the whole shares that a rebuild reads.
"""
import sys
from balanced import build_plan
from carry import group_words
from choose import choose

numbers = [int(word) for word in " ".join(sys.argv[1:]).split()]
number, record = choose(*numbers, 7) if len(numbers) == 2 else (4, None)
if number:
    print("refused", number)
    sys.exit()
plan = build_plan(record)[1]
writes = {sum(x != 0 for x in row) for row in plan.entries}
reads = [sum(x != 0 for x in column) for column in zip(*plan.entries)]
words = None if plan.field.size == 256 else group_words(plan.field.size)
print("record", *record)
print("writes", *writes)
print("reads", min(reads), max(reads))
print("storage", *((plan.n, plan.k) if words is None else (plan.n * (words + 1), plan.k * words)))
print("rebuild", plan.k)
