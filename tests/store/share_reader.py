"""A reader of share files, written from docs/SHARE-FILE.md alone: it shares nothing with the program."""
import hashlib
import struct
import zlib


def number(data, at, count):
    return int.from_bytes(data[at:at + count], "big")


def header(data):
    """The fields of a header as a table; fails where a byte is not as the page says."""
    length, kind = number(data, 10, 2), data[16]
    record = data[16:16 + {1: 5, 2: 4, 3: 7}[kind]]
    n, k = record[-2:]
    assert data[:8] == b"BALSHARE" and number(data, 8, 2) == 1 and data[12] in (0, 1)
    assert data[16 + len(record):24] == bytes(8 - len(record))
    assert number(data, length - 4, 4) == zlib.crc32(data[:length - 4])
    assert length == 133 + 8 * n + data[128 + 8 * n]
    return {
        "length": length, "removed": data[12], "node": data[13], "lanes": number(data, 14, 2), "record": record, "n": n, "k": k,
        "store": data[24:40], "size": number(data, 40, 8), "generation": number(data, 48, 8), "write": number(data, 56, 8),
        "digest": data[64:96], "sent": [j for j in range(n) if data[96 + j // 8] >> j % 8 & 1],
        "writes": struct.unpack_from(f">{n}Q", data, 128), "name": data[129 + 8 * n:length - 4].decode("ascii")}


def group_words(record):
    """The words of a group in kind 3."""
    return min(256, 61440 // (65536 - number(record, 1, 2))) - 1


def symbols_for(record, size):
    """How many symbols carry so many bytes of a block."""
    words = -(-size // 2)
    return size if record[0] == 2 else words + -(-words // group_words(record))


def capacity(record, lanes):
    """How many bytes a block of so many lanes holds."""
    symbols = record[-1] * lanes
    if record[0] == 2:
        return symbols
    groups, rest = divmod(symbols, group_words(record) + 1)
    return 2 * (groups * group_words(record) + max(0, rest - 1))


def carried(record, symbols, size):
    """The bytes that the symbols of a message carry, so many of them; symbols of two bytes are numbers."""
    if record[0] == 2:
        return bytes(symbols[:size])
    step, found = group_words(record) + 1, b""
    for at in range(0, symbols_for(record, size), step):
        mask, *words = symbols[at:min(at + step, symbols_for(record, size))]
        found += b"".join((word ^ mask).to_bytes(2, "big") for word in words)
    return found[:size]


def blocks(data):
    """The node's symbols of each block of a share file, as bytes."""
    head, found = header(data), []
    at, left, width = head["length"], head["size"], 2 if head["record"][0] == 3 else 1
    while left:
        size = min(left, capacity(head["record"], head["lanes"]))
        full = size == capacity(head["record"], head["lanes"])
        lanes = head["lanes"] if full else -(-symbols_for(head["record"], size) // head["k"])
        symbols = data[at:at + lanes * width]
        at, left = at + lanes * width, left - size
        assert number(data, at, 4) == zlib.crc32(len(found).to_bytes(8, "big") + symbols)
        found.append(symbols)
        at += 4
    assert at == len(data)
    return found


def digest(image, record, lanes):
    step = capacity(record, lanes)
    parts = [image[at:at + step] for at in range(0, len(image), step)]
    return sum(number(hashlib.sha256(b.to_bytes(8, "big") + part).digest(), 0, 32) for b, part in enumerate(parts)) % 2 ** 256
