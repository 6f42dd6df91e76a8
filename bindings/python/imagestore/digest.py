"""The digest of an image: the sum of the SHA-256 of its blocks, each after its number, modulo 2^256.

A change of one block needs that block alone to know the new digest, and the blocks can be hashed in any order.
"""
import hashlib
import struct

NUMBER = struct.Struct(">Q")
MODULUS = 1 << 256


def of_block(block, data):
    """The part of one block, as a number."""
    hashed = hashlib.sha256(NUMBER.pack(block))
    hashed.update(data)
    return int.from_bytes(hashed.digest(), "big")


def to_bytes(total):
    return (total % MODULUS).to_bytes(32, "big")


def from_bytes(digest):
    return int.from_bytes(digest, "big")
