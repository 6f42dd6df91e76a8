"""What a node says of an image that it holds: the header of its share, and that of a write that is prepared."""
import struct
from dataclasses import dataclass

from .errors import sentence

HEAD = struct.Struct(">BBQHH")
SHARE, PENDING, SHARE_BAD, PENDING_BAD = 1, 2, 4, 8


@dataclass(frozen=True)
class Entry:
    """`header` and `pending` are bytes, or None. Where one cannot be read, `damage` or `pending_damage` says why."""
    name: str
    size: int = 0
    header: bytes | None = None
    pending: bytes | None = None
    damage: str | None = None
    pending_damage: str | None = None


def pack(entry):
    flags = (SHARE if entry.header else 0) | (PENDING if entry.pending else 0)
    flags |= (SHARE_BAD if entry.damage else 0) | (PENDING_BAD if entry.pending_damage else 0)
    name, one, two = entry.name.encode(), entry.header or b"", entry.pending or b""
    one, two = (entry.damage or "").encode() or one, (entry.pending_damage or "").encode() or two
    return HEAD.pack(len(name), flags, entry.size, len(one), len(two)) + name + one + two


def unpack_one(data, at):
    """The entry at a place, and the place after it."""
    count, flags, size, first, second = HEAD.unpack_from(data, at)
    at += HEAD.size
    name, one, two = data[at:at + count], data[at + count:at + count + first], data[at + count + first:at + count + first + second]
    if len(name) + len(one) + len(two) != count + first + second:
        raise ValueError("an entry is cut")
    return Entry(
        name.decode(), size, one if flags & SHARE else None, two if flags & PENDING else None,
        sentence(one) if flags & SHARE_BAD else None, sentence(two) if flags & PENDING_BAD else None,
    ), at + count + first + second


def unpack(data):
    """All entries of an answer."""
    at, found = 0, []
    while at < len(data):
        entry, at = unpack_one(data, at)
        found.append(entry)
    return found
