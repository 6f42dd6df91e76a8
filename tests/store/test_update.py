"""Updates: what is sent to whom, and that the image is what it should be after any number of them."""
import struct
import unittest
from unittest import mock

from support import StoreCase

import balanced
import reference
from imagestore import changes, frames, ranges
from imagestore.node import ACTS, EXCLUSIVE, Node


class Updates(StoreCase):
    def test_random_updates(self):
        """Random bytes at random places, with nodes away now and then; the reference reads the image from any k share files."""
        for n, k, lanes in ((5, 3, 8), (15, 10, 4), (17, 5, 3)):
            self.store = self.top / f"s{n}.toml"
            self.make(n, k, lanes)
            data = bytearray(self.bytes(3 * k * lanes + 7))
            self.put(data)
            for turn in range(12):
                place = self.random.randrange(len(data))
                part = self.bytes(self.random.choice([1, 2, lanes, self.random.randrange(len(data))]))[:len(data) - place]
                data[place:place + len(part)] = part
                with self.without(*self.random.sample(range(n), self.random.choice([0, 0, 1, (n - k) // 2]))):
                    self.right("update", "image", "--at", place, self.file(part))
                if turn % 3 == 2:
                    self.right("check", "--correct")
                    nodes = self.random.sample(range(n), k)
                    self.assertEqual(reference.image_of([self.share(node) for node in nodes]), data)
                self.assertEqual(self.got(), data)

    def test_one_symbol_goes_to_d_nodes(self):
        """Whichever byte changes, n-k+1 share files change, and the others are as they were, to the last byte."""
        self.make(15, 10, 8)
        data = bytearray(self.bytes(100))
        self.put(data)
        for place in range(0, 100, 7):
            before = [self.share(node).read_bytes() for node in range(15)]
            data[place] ^= 255
            result = self.right("update", "image", "--at", place, self.file(data[place:place + 1]))
            changed = [node for node in range(15) if self.share(node).read_bytes() != before[node]]
            self.assertEqual(changed, result["nodes"])
            self.assertEqual((len(changed), result["symbols_sent"], result["plain_sent"], result["told"]), (6, 6, 6, []))
        self.all_right(data)

    def test_one_byte_in_symbols_of_two(self):
        """On six nodes a byte changes one symbol, at n-k+1 nodes; where its word is no symbol under the mask its group is carried anew."""
        self.make(6, 4, 64)
        data = bytearray(1200)
        self.put(data)

        def update(place, part):
            before = [self.share(node).read_bytes() for node in range(6)]
            data[place:place + len(part)] = part
            result = self.right("update", "image", "--at", place, self.file(part))
            changed = [node for node in range(6) if self.share(node).read_bytes() != before[node]]
            self.assertEqual(changed, result["nodes"])
            return len(changed), result["symbols_sent"], result["plain_sent"], result["told"]

        for place in (0, 1, 300, 509, 510, 777, 1199):
            self.assertEqual(update(place, b"a"), (3, 6, 6, []))
        self.assertGreater(update(0, b"\xff\xff")[1], 6)
        for place in (3, 301, 508):
            self.assertEqual(update(place, b"b"), (3, 6, 6, []))
        self.all_right(data)

    def test_what_is_sent_is_added(self):
        """The nodes of the row are sent what they have to add, and no other node is sent anything; the library says what that is."""
        self.make(15, 10, 8)
        data = bytearray(self.bytes(80))
        self.put(data)
        plan, seen = balanced.Plan([2, 11, 15, 10]), []
        real = Node.patch

        def noted(node, request):
            seen.append((request.op, int(node.path[-3:]), bytes(request.data)))
            return real(node, request)

        with mock.patch.dict(ACTS, {op: (noted, EXCLUSIVE) for op in (frames.PATCH, frames.ADD)}):
            for row, lane in ((0, 0), (3, 5), (9, 7)):
                seen.clear()
                place = row * 8 + lane
                part = plan.differences(1, row, data[place:place + 1], b"%c" % (data[place] ^ 99))
                data[place] ^= 99
                self.right("update", "image", "--at", place, self.file(data[place:place + 1]))
                wanted = [(frames.ADD, node, struct.pack(">QIHH", 0, 5, lane, 1) + part[node:node + 1]) for node in range(15) if part[node]]
                self.assertEqual((sorted(seen, key=lambda one: one[1]), len(wanted)), (wanted, plan.d))
        self.all_right(data)

    def test_few_rows_and_many(self):
        """One row of a block, some, and all of them: what is added, and where many rows change the new symbols."""
        self.make(51, 34, 5)
        data = bytearray(self.bytes(34 * 5 * 3))
        self.put(data)
        for first, count in ((3, 1), (0, 5), (170, 16 * 5), (170, 17 * 5), (1, 509), (100, 140)):
            part = self.bytes(count)
            data[first:first + count] = part
            self.right("update", "image", "--at", first, self.file(part))
            self.all_right(data)
        self.assertEqual(reference.image_of([self.share(node) for node in range(17, 51)]), data)

    def test_every_node_is_written_alike(self):
        """Over all rows of a block each node is written as often as any other: 4 times of 10 rows."""
        self.make(15, 10, 8)
        self.put(bytes(80))
        written = dict.fromkeys(range(15), 0)
        for row in range(10):
            for node in self.right("update", "image", "--at", 8 * row, self.file(b"x"))["nodes"]:
                written[node] += 1
        self.assertEqual(set(written.values()), {4})

    def test_a_whole_new_file(self):
        """Only what differs is sent: a file that differs in two places."""
        self.make(5, 3, 64)
        data = bytearray(self.bytes(2000))
        self.put(data)
        data[3] ^= 1
        data[1500] ^= 1
        result = self.right("update", "image", self.file(data))
        self.assertEqual((result["changed"], result["symbols_sent"], result["generation"]), (2, 6, 2))
        self.all_right(data)
        result = self.right("update", "image", self.file(data))
        self.assertEqual((result["changed"], result["generation"], result["nodes"]), (0, 2, []))
        for length in (0, 1, 5000):
            data = self.bytes(length)
            result = self.right("update", "image", self.file(data))
            self.assertIsNone(result["changed"])
            self.all_right(data)

    def test_what_lies_outside(self):
        self.make()
        self.put(b"ten bytes.")
        for place, part in ((10, b"x"), (9, b"xy"), (-1, b"x"), (2 ** 70, b"x")):
            self.refused(2, "update", "image", f"--at={place}", self.file(part))
        self.assertEqual(self.right("update", "image", "--at", 10, self.file(b""))["changed"], 0)
        self.assertIn("there is no image", self.refused(1, "update", "other", self.file(b"x")))
        self.all_right(b"ten bytes.")

    def test_a_damaged_block_gets_no_right_checksum(self):
        """A node whose block is damaged does not take an update of it: the others do, and it is made anew."""
        self.make(5, 3, 16)
        data = bytearray(self.bytes(48))
        self.put(data)
        node = self.right("update", "image", "--at", 0, self.file(b"a"))["nodes"][0]
        self.flip(node, -8)
        data[0:3] = b"new"
        result = self.right("update", "image", "--at", 0, self.file(b"new"))
        self.assertIn("damaged", result["absent"][str(node)])
        self.assertEqual(self.got(), data)
        self.right("check", "--correct")
        self.all_right(data)

    def test_the_file_is_not_copied(self):
        """A small update of a large share writes little: the share file stays the same file."""
        self.make(3, 2, 4096)
        self.put(self.bytes(500_000))
        before = [self.share(node).stat().st_ino for node in range(3)]
        self.right("update", "image", "--at", 250_000, self.file(b"x"))
        self.assertEqual([self.share(node).stat().st_ino for node in range(3)], before)


    def test_every_node_of_many(self):
        """A change of every row on 255 nodes: more files are open at once than a process may have where nothing is said."""
        self.make(255, 120, 3)
        self.put(bytes(360))
        data = self.bytes(360)
        self.assertEqual(len(self.right("update", "image", self.file(data))["nodes"]), 255)
        self.assertEqual(self.got(), data)


class Ranges(StoreCase):
    def test_ranges(self):
        for _ in range(300):
            size = self.random.randrange(1, 400)
            old = self.bytes(size)
            new = bytearray(old)
            for _ in range(self.random.randrange(4)):
                new[self.random.randrange(size)] ^= self.random.randrange(256)
            found = ranges.changed(old, new)
            rebuilt = bytearray(old)
            for first, end in found:
                self.assertTrue(new[first] != old[first] and new[end - 1] != old[end - 1])
                rebuilt[first:end] = new[first:end]
            self.assertEqual(rebuilt, new)
            self.assertTrue(all(second[0] - first[1] > ranges.GAP for first, second in zip(found, found[1:])))

    def test_whole_symbols(self):
        """Symbols of two bytes are sent whole."""
        old, new = bytes(200), bytes([0, 0, 0, 1, *bytes(146), 1, *bytes(49)])
        self.assertEqual(ranges.changed(old, new, 2), [(2, 4), (150, 152)])
        self.assertEqual(ranges.changed(old, new), [(3, 4), (150, 151)])

    def test_the_plain_layout(self):
        """A row of one byte changed in two lanes: one data node and n-k sums; two rows in one lane: two data nodes and the sums."""
        plan = balanced.Plan([2, 11, 15, 10])
        old = bytes(1000)
        for places, count, nodes in (([0], 6, 6), ([0, 70], 12, 6), ([0, 100], 7, 7), ([0, 170], 12, 7)):
            new = bytearray(old)
            for place in places:
                new[place] = 1
            sent, written = changes.in_plain_layout(plan, 100, old, new)
            self.assertEqual((sent, len(written)), (count, nodes))


if __name__ == "__main__":
    unittest.main()
