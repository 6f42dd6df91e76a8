"""Lost and wrong together: nodes are away, and among the others some are wrong although their checksums are right."""
import unittest

from support import StoreCase

from imagestore import share


class Together(StoreCase):
    """15 nodes of which 9 are needed: with a nodes away and b wrong an image can be had while a + 2·b is at most 6."""

    def setUp(self):
        super().setUp()
        self.make(15, 9, 16)
        self.data = self.bytes(16 * 9 * 3 + 50)
        self.put(self.data)

    def forge(self, node, block, lane=3):
        """Changes a symbol of a block and makes the block's checksum right."""
        data = bytearray(self.share(node).read_bytes())
        head = share.unpack_header(data)
        place = share.block_place(head.record, head.name, head.lanes, block)
        end = min(place + head.lanes, len(data) - 4)
        data[place + lane] ^= 77
        data[end:end + 4] = share.checksum(share.seed(block), data[place:end])
        self.share(node).write_bytes(data)

    def right_again(self):
        self.right("check", "--correct")
        self.all_right(self.data)

    def test_as_much_as_the_code_bears(self):
        for away, wrong in ((6, 0), (4, 1), (3, 1), (2, 2), (0, 3), (1, 2)):
            nodes = self.random.sample(range(15), away + wrong)
            with self.subTest(away=away, wrong=wrong):
                for node in nodes[:wrong]:
                    self.forge(node, 1)
                with self.without(*nodes[wrong:]):
                    self.assertEqual(self.got(), self.data)
                    status, result = self.command("check")
                    self.assertEqual((status, sorted(map(int, result["images"][0]["wrong"]))), (1, sorted(nodes[:wrong])))
                    result = self.command("check", "--correct")[1]
                    self.assertEqual((result["images"][0]["corrected"], result["images"][0]["wrong"]), (sorted(nodes[:wrong]), {}))
                self.all_right(self.data)

    def test_more_than_that_is_doubted(self):
        """Nothing is written, and nothing wrong is given as the image."""
        nodes = self.random.sample(range(15), 6)
        for node in nodes[:2]:
            self.forge(node, 0)
        before = [self.share(node).read_bytes() for node in range(15)]
        with self.without(*nodes[2:5]):
            status, result = self.command("check", "--correct")
            self.assertEqual((status, result["images"][0]["corrected"]), (1, []))
            self.assertTrue(result["images"][0]["doubts"])
            status, _ = self.command("get", "image", self.top / "x")
            self.assertTrue(status == 1 or (self.top / "x").read_bytes() == self.data)
            self.refused(1, "update", "image", "--at", 0, self.file(b"news"))
        self.assertEqual([self.share(node).read_bytes() for node in range(15)], before)
        self.right_again()

    def forge_in_every_block(self, count):
        """Other nodes are wrong in each block, so many of them."""
        for block in range(4):
            for node in range(count * block, count * block + count):
                self.forge(node, block, lane=0)
        return list(range(4 * count))

    def test_other_nodes_in_each_block(self):
        """More nodes are wrong than a block bears, but in no block too many: an image is had block by block."""
        wrong = self.forge_in_every_block(3)
        self.assertEqual(self.got(), self.data)
        status, result = self.command("check")
        self.assertEqual((status, sorted(map(int, result["images"][0]["wrong"]))), (1, wrong))
        self.right_again()

    def test_rebuild(self):
        kept = self.share(14).read_bytes()
        self.forge_in_every_block(2)
        self.share(14).unlink()
        self.right("rebuild", 14)
        self.assertEqual(self.share(14).read_bytes(), kept)
        self.right_again()

    def test_update(self):
        """An update finds a wrong node out while others are away, and goes on without it."""
        self.forge(4, 0)
        with self.without(7, 11, 2, 9):
            self.right("update", "image", "--at", 5, self.file(b"news"))
            self.data = self.data[:5] + b"news" + self.data[9:]
            self.assertEqual(self.got(), self.data)
        self.right_again()


if __name__ == "__main__":
    unittest.main()
