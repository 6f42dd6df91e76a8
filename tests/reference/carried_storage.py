#!/usr/bin/env python3
"""Prints for every n from 2 to 255 what carrying bytes adds to the storage, in percent: 0 where symbols are bytes, else 1/m for m words in a group."""
from carry import group_words
from choose import prime_for


def added(n):
    """Percent, over n/k times the image."""
    return 0 if 255 % n == 0 else 100 / group_words(prime_for(n))


cells = [f"{n:3} {added(n):5.2f}" for n in range(2, 256)]
for at in range(0, len(cells), 8):
    print("   ".join(cells[at:at + 8]))
