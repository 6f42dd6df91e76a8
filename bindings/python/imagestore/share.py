"""The share file, byte by byte (docs/SHARE-FILE.md): a header, then the node's share of each block with its checksum.

No other module knows these bytes. All numbers are big-endian.
"""
import struct
import zlib
from dataclasses import dataclass, replace

from .errors import StoreError
from .names import is_name

MAGIC, VERSION = b"BALSHARE", 1
IMAGE, REMOVED = 0, 1
# magic, version, length of the header, state, node, lanes, record, store, length, generation, write, digest, participants
FIXED = struct.Struct(">8sHHBBH8s16sQQQ32s32s")
CHECKSUM = struct.Struct(">I")
NUMBER = struct.Struct(">Q")
RECORD_LENGTH = {1: 5, 2: 4, 3: 7}
MAX_HEADER = FIXED.size + 8 * 255 + 1 + 200 + CHECKSUM.size


class BadShare(StoreError):
    """Bytes that are no header, or no longer."""


@dataclass(frozen=True)
class Header:
    """What a share file says of itself and of its image.

    `write` numbers the write that made this header, and `participants` are the nodes that it was sent to. `writes[j]` is
    the write that node j has its content from: an update gives new content to some nodes, and the others keep theirs.
    """
    store: bytes
    record: bytes
    lanes: int
    name: str
    node: int
    length: int
    generation: int
    write: int
    digest: bytes
    participants: frozenset
    writes: tuple
    removed: bool = False

    @property
    def content(self):
        """The write that this node has its content from."""
        return self.writes[self.node]

    def of(self, node):
        """The same header at another node."""
        return replace(self, node=node)


def nodes_of(record):
    """n of a record."""
    return record[-2]


def symbol_len(record):
    return 2 if record[0] == 3 else 1


def header_len(record, name):
    return FIXED.size + 8 * nodes_of(record) + 1 + len(name) + CHECKSUM.size


def pack_header(header):
    """The header as bytes."""
    bits = sum(1 << node for node in header.participants).to_bytes(32, "little")
    fixed = FIXED.pack(
        MAGIC, VERSION, header_len(header.record, header.name), REMOVED if header.removed else IMAGE, header.node, header.lanes,
        header.record, header.store, header.length, header.generation, header.write, header.digest, bits)
    name = header.name.encode("ascii")
    body = fixed + b"".join(map(NUMBER.pack, header.writes)) + bytes([len(name)]) + name
    return body + CHECKSUM.pack(zlib.crc32(body))


def stated_len(start):
    """How long the header is that begins with these bytes; they are 12 at least."""
    if len(start) < 12 or start[:8] != MAGIC:
        raise BadShare("the file is no share file")
    version, length = struct.unpack_from(">HH", start, 8)
    if version != VERSION:
        raise BadShare(f"the share file has version {version}, and this program knows {VERSION}")
    if not FIXED.size < length <= MAX_HEADER:
        raise BadShare("the header is damaged: its length cannot be")
    return length


def unpack_header(data):
    """The header that these bytes begin with."""
    length = stated_len(data)
    body, checksum = bytes(data[:length - 4]), bytes(data[length - 4:length])
    if len(data) < length or CHECKSUM.pack(zlib.crc32(body)) != checksum:
        raise BadShare("the header is damaged: its checksum is wrong")
    (_, _, _, state, node, lanes, padded, store, size, generation, write, digest, bits) = FIXED.unpack_from(body)
    record = padded[:RECORD_LENGTH.get(padded[0], 0)]
    if not record or state not in (IMAGE, REMOVED):
        raise BadShare("the header has a record or a state that this program does not know")
    end = FIXED.size + 8 * nodes_of(record)
    name = body[end + 1:].decode("ascii", "replace")
    if len(body) <= end or body[end] != len(name) or not is_name(name) or node >= nodes_of(record):
        raise BadShare("the header has a name or a node that cannot be")
    writes = struct.unpack_from(f">{nodes_of(record)}Q", body, FIXED.size)
    nodes = frozenset(j for j in range(256) if int.from_bytes(bits, "little") >> j & 1)
    return Header(bytes(store), bytes(record), lanes, name, node, size, generation, write, bytes(digest), nodes, writes,
                  state == REMOVED)


def seed(block):
    """What the checksum of a block begins with: its number, so that a block at another's place is found out."""
    return zlib.crc32(NUMBER.pack(block))


def checksum(block_seed, symbols):
    """The checksum of a node's share of a block, as it stands behind it."""
    return zlib.crc32(symbols, block_seed).to_bytes(4, "big")


def checksums(block_seed, rows):
    """As `checksum`, of each of some nodes' shares of a block."""
    return [zlib.crc32(row, block_seed).to_bytes(4, "big") for row in rows]


def block_place(record, name, lanes, block):
    """Where a block begins in the share file."""
    return header_len(record, name) + block * (lanes * symbol_len(record) + CHECKSUM.size)
