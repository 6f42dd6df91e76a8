"""A record as people write it, its numbers in base ten, parted by spaces, to its bytes; and n and k, which ask for one."""
import re

FORM = "write its numbers in base ten, parted by spaces, as in RECORD='1 7 3 6 4'."
WIDE_FORM = "write p and α of kind 3 both as numbers, as in RECORD='3 257 16 4 2', or both as two bytes, high byte first, as in RECORD='3 1 1 0 16 4 2'."


class NoRecord(Exception):
    """The text stands for no bytes; the words say why, and what to write."""


def numbers_of(text):
    words = text.split()
    for word in words:
        if not re.fullmatch(r"[0-9]{1,9}", word):
            raise NoRecord(f"{word!r} in the record is not a number from 0 to 65,535: {FORM}")
    return [int(word) for word in words]


def wide_bytes(numbers):
    """The bytes of 3 p α n k, where p and α are numbers."""
    if len(numbers) != 5:
        raise NoRecord(f"{max(numbers)} is above 255, and this record of kind 3 has {len(numbers)} numbers: {WIDE_FORM}")
    for name, value, greatest in zip(["p", "α", "n", "k"], numbers[1:], [65535, 65535, 255, 255]):
        if value > greatest:
            raise NoRecord(f"{name} = {value} is above {greatest:,}, the most that a record of kind 3 holds there.")
    kind, p, root, n, k = numbers
    return bytes([kind, *divmod(p, 256), *divmod(root, 256), n, k])


def bytes_of(text):
    """The bytes of the record: one for each number; in kind 3 two for p and two for α where a number is above 255."""
    numbers = numbers_of(text)
    if all(number <= 255 for number in numbers):
        return bytes(numbers)
    if numbers[0] == 3:
        return wide_bytes(numbers)
    raise NoRecord(f"{max(numbers)} is above 255, and a number of a record is one byte. A prime above a byte has kind 3: {WIDE_FORM}")


def counts_of(text):
    """The two bytes that ask for a record: n and k."""
    numbers = numbers_of(text)
    if len(numbers) != 2 or max(numbers) > 255:
        raise NoRecord("write n and k, two numbers up to 255, as in N=6 K=5.")
    return bytes(numbers)
