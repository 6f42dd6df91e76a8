"""Bytes carried in the symbols of a record, back, and changed there.

A record of kind 2 has bytes as symbols: they are carried as they are. With a prime p from 34,816 on, two bytes are a word of 16
binary digits, the last of an odd number with a zero behind it. Each group of words goes as a mask, which is a symbol, and the words
under it by exclusive or, which are symbols too. The mask is found digit by digit, the highest first: of the two halves of the masks
that are left it is the one in which fewer pairs of a mask and a word give no symbol, and the lower one if they are as many; 0 counts
as a word, so that the mask is a symbol. Any other record carries no bytes (18).

A group of which bytes are changed keeps its mask while all its words are symbols under it, and else is carried anew.
"""
from balanced import call, pairs

MOST_BYTES = 2**62
DIGITS = 16


def carries(plan):
    return plan.field.size == 256 or plan.field.size >= 34816


def is_bytes(plan):
    return plan.field.size == 256


def group_words(p):
    """The words of a group: each of them and the mask rule out 65,536 - p masks, and one in sixteen at least is left."""
    return min(256, 61440 // (65536 - p)) - 1


def groups(numbers, size):
    return [numbers[at:at + size] for at in range(0, len(numbers), size)]


def ruled_out(p, words, first, count):
    """Pairs of a word and a mask from `first` on, so many masks, a power of two, that give p or more.

    Under these masks a word takes each value of one stretch of so many numbers once.
    """
    starts = ((word ^ first) // count * count for word in words)
    return sum(max(0, start + count - max(p, start)) for start in starts)


def mask_of(p, words):
    words, first = [0, *words], 0
    for digit in reversed(range(DIGITS)):
        half = 2**digit
        if ruled_out(p, words, first + half, half) < ruled_out(p, words, first, half):
            first += half
    return first


def closed(p, words):
    """A group as it is carried."""
    mask = mask_of(p, words)
    return [mask, *(word ^ mask for word in words)]


def opened(symbols):
    """The words of a group that was carried, under any mask."""
    return [symbol ^ symbols[0] for symbol in symbols[1:]]


def carried_symbols(plan, count):
    """How many symbols so many bytes take."""
    if is_bytes(plan):
        return count
    words, size = (count + 1) // 2, group_words(plan.field.size)
    return words + -(-words // size)


def carried_len(record, count):
    """(number, the bytes of the symbols that carry so many bytes)"""

    def faults(plan):
        yield 18, not carries(plan)
        yield 8, count > MOST_BYTES

    return call(record, faults, lambda plan: plan.size(carried_symbols(plan, count)))


def carry_in(record, data, room):
    """(number, the symbols that carry the bytes)"""

    def faults(plan):
        yield 18, not carries(plan)
        yield 8, room != plan.size(carried_symbols(plan, len(data)))

    def work(plan):
        if is_bytes(plan):
            return bytes(data)
        p, padded = plan.field.size, data + bytes(len(data) % 2)
        return plan.bytes([symbol for words in groups(pairs(padded), group_words(p)) for symbol in closed(p, words)])

    return call(record, faults, work)


def carry_out(record, symbols, room):
    """(number, the bytes that the symbols carry)"""

    def faults(plan):
        yield 18, not carries(plan)
        yield 8, room > MOST_BYTES or len(symbols) != plan.size(carried_symbols(plan, room))
        yield 11, any(symbol >= plan.field.size for symbol in plan.symbols(symbols))

    def work(plan):
        if is_bytes(plan):
            return bytes(symbols)
        size = group_words(plan.field.size) + 1
        return plan.bytes([word for group in groups(plan.symbols(symbols), size) for word in opened(group)])[:room]

    return call(record, faults, work)


def carry_change(record, count, at, data, symbols):
    """(number, the symbols with the bytes from `at` on changed, of so many)"""

    def faults(plan):
        yield 18, not carries(plan)
        yield 8, count > MOST_BYTES or len(symbols) != plan.size(carried_symbols(plan, count))
        yield 9, at + len(data) > count
        yield 11, any(symbol >= plan.field.size for symbol in plan.symbols(symbols))

    def work(plan):
        if is_bytes(plan):
            return bytes(symbols[:at] + data + symbols[at + len(data):])
        p, size = plan.field.size, group_words(plan.field.size)
        parts, changed = groups(plan.symbols(symbols), size + 1), {}
        for place, byte in enumerate(data, at):
            part, word = divmod(place // 2, size)
            words = changed.setdefault(part, opened(parts[part]))
            words[word] = words[word] & 0xFF00 | byte if place % 2 else words[word] & 0xFF | byte << 8
        for part, words in changed.items():
            mask = parts[part][0]
            served = all(word ^ mask < p for word in words)
            parts[part] = [mask, *(word ^ mask for word in words)] if served else closed(p, words)
        return plan.bytes([symbol for part in parts for symbol in part])

    return call(record, faults, work)
