"""Share files: against the reader that was written from the document, and every bit of a header counts."""
import unittest
from dataclasses import replace

from support import StoreCase

import reference
import share_reader
from imagestore import share

HEADER = share.Header(
    store=bytes(range(16)), record=bytes([2, 11, 15, 10]), lanes=512, name="firmware-1.2_b", node=7, length=123456789012, generation=3,
    write=2 ** 63 + 5, digest=bytes(range(100, 132)), participants=frozenset([0, 7, 8, 14]), writes=tuple(range(2 ** 40, 2 ** 40 + 15)))


class Headers(unittest.TestCase):
    def test_there_and_back(self):
        for header in (HEADER, replace(HEADER, removed=True, node=0), replace(HEADER, name="x" * 200),
                       replace(HEADER, record=bytes([1, 7, 3, 6, 3]), writes=(0,) * 6, node=5, participants=frozenset()),
                       replace(HEADER, record=bytes([3, 1, 1, 0, 16, 4, 2]), writes=(1, 2, 3, 4), node=3)):
            self.assertEqual(share.unpack_header(share.pack_header(header) + b"blocks"), header)

    def test_as_the_document_says(self):
        seen = share_reader.header(share.pack_header(HEADER))
        self.assertEqual(seen, {
            "length": len(share.pack_header(HEADER)), "removed": 0, "node": 7, "lanes": 512, "record": HEADER.record, "n": 15, "k": 10,
            "store": HEADER.store, "size": HEADER.length, "generation": 3, "write": HEADER.write, "digest": HEADER.digest,
            "sent": [0, 7, 8, 14], "writes": HEADER.writes, "name": HEADER.name})

    def test_every_bit_counts(self):
        data = bytearray(share.pack_header(HEADER))
        for bit in range(8 * len(data)):
            data[bit // 8] ^= 1 << bit % 8
            with self.assertRaises(share.BadShare, msg=f"bit {bit}"):
                share.unpack_header(data)
            data[bit // 8] ^= 1 << bit % 8

    def test_every_cut_is_found(self):
        data = share.pack_header(HEADER)
        for count in range(len(data)):
            with self.assertRaises(share.BadShare, msg=f"{count} bytes"):
                share.unpack_header(data[:count])

    def test_headers_that_cannot_be(self):
        """The checksum is right, and something else is not."""
        for wrong in (replace(HEADER, name="../x"), replace(HEADER, name=".x"), replace(HEADER, name=""), replace(HEADER, node=15),
                      replace(HEADER, record=bytes([4, 11, 15, 10]))):
            with self.assertRaises(share.BadShare):
                share.unpack_header(share.pack_header(wrong))


class Files(StoreCase):
    def test_read_without_the_program(self):
        """Images of every sort of length, put and updated, from k share files of each store by the document and the reference."""
        for n, k, lanes in ((3, 2, 4), (5, 2, 8), (15, 10, 16), (17, 9, 4), (2, 1, 9), (6, 5, 16), (12, 4, 150), (23, 3, 8)):
            self.store = self.top / f"s{n}.toml"
            self.make(n, k, lanes)
            block = share_reader.capacity(self.record, lanes)
            for length in (0, 1, k, k + 1, block - 1, block, block + 1, 3 * block, 3 * block + 5):
                data = bytearray(self.bytes(length))
                self.put(data)
                self.compare(data)
                if length > 9:
                    data[3:7] = b"news"
                    self.right("update", "image", "--at", "3", self.file(b"news"))
                    self.compare(data)
                self.right("rm", "image")

    def compare(self, data):
        nodes = self.random.sample(range(self.n), self.k)
        self.assertEqual(reference.image_of([self.share(node) for node in nodes]), data)


if __name__ == "__main__":
    unittest.main()
