"""Where two runs of bytes differ, as ranges: a first byte and the byte after the last."""

STEP = 64  # bytes that are compared at once: two changes within them are one range
GAP = 8    # a gap of so few equal bytes is sent too: a range of its own would take as many


def joined(ranges):
    """Ranges in order, with those that overlap or are near made one."""
    found = []
    for first, end in sorted(ranges):
        if found and first - found[-1][1] <= GAP:
            found[-1] = (found[-1][0], max(end, found[-1][1]))
        else:
            found.append((first, end))
    return found


def changed(old, new, width=1):
    """The ranges in which `new` differs from `old`, in whole symbols of so many bytes; the two have one length."""
    found = []
    for start in range(0, len(new), STEP):
        before, after = old[start:start + STEP], new[start:start + STEP]
        if before != after:
            other = int.from_bytes(before, "little") ^ int.from_bytes(after, "little")
            first = ((other & -other).bit_length() - 1) // 8
            end = (other.bit_length() + 7) // 8
            found.append((start + first // width * width, start + -(-end // width) * width))
    return joined(found)


def total(ranges):
    return sum(end - first for first, end in ranges)
