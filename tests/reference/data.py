"""Test data, checksums and words by the rules that the test programs use."""

# the records and lanes of the programs of large blocks, tests/large.h
LARGE_BLOCKS = [
    ([2, 2, 255, 120], 4096), ([1, 251, 6, 250, 125], 4096), ([2, 32, 51, 18], 1000), ([1, 251, 246, 50, 25], 1001), ([2, 2, 255, 119], 1000),
    ([1, 251, 250, 2, 1], 4097), ([3, 255, 241, 15, 41, 16, 8], 4096), ([3, 252, 1, 6, 145, 252, 126], 40), ([3, 1, 1, 0, 2, 16, 5], 4097),
]


def fill(seed, size, count):
    """Symbols from a linear congruential generator's states after the seed, by their higher digits."""
    out, x, low = [], seed, 65536 if size <= 256 else 256
    for _ in range(count):
        x = (x * 1103515245 + 12345) % 2147483648
        out.append(x // low % size)
    return out


def checksum(s):
    total = 0
    for byte in s:
        total = (total * 257 + byte + 1) % 4294967291
    return total


def block(s):
    """The bytes, or how many there are and their checksum where there are more than 64."""
    if len(s) <= 64:
        return "".join(f" {byte}" for byte in s)
    return f" {len(s)} bytes sum {checksum(s)}"


def refused(number):
    """A call that is turned away leaves everything lent to it unchanged."""
    return f"refused {number}, unchanged"
