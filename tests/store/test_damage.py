"""Shares that are not as they should be: flipped, cut, swapped, stale, foreign; found, named, left out, and set right."""
import itertools
import shutil
import unittest

from support import StoreCase, command


class Damage(StoreCase):
    def setUp(self):
        super().setUp()
        self.make(5, 3, 16)
        self.data = self.bytes(500)
        self.put(self.data)

    def found(self, *nodes):
        """The image is got whatever is wrong; a check names just these nodes; it sets them right."""
        self.assertEqual(self.got(), self.data)
        status, result = self.command("check")
        self.assertEqual((status, sorted(map(int, result["images"][0]["wrong"]))), (1, sorted(nodes)), result)
        said = result["images"][0]["wrong"]
        result = self.right("check", "--correct")
        self.assertEqual(result["images"][0]["corrected"], sorted(nodes))
        self.all_right(self.data)
        return [said[str(node)] for node in nodes]

    def test_every_byte_of_a_share(self):
        """One bit of any byte, of the header or of a block, is found."""
        size = len(self.share(0).read_bytes())
        kept = self.share(3).read_bytes()
        for place in range(0, size, 3):
            self.share(3).write_bytes(kept)
            self.flip(3, place, mask=1 << place % 8)
            status, result = self.command("check")
            self.assertEqual((status, list(result["images"][0]["wrong"])), (1, ["3"]), f"byte {place}")
        self.assertEqual(self.got(), self.data)
        self.found(3)

    def test_as_many_as_the_code_allows(self):
        self.flip(0, -3)
        self.flip(4, -3)
        self.found(0, 4)

    def test_more_nodes_than_that_in_other_blocks(self):
        """Every node is damaged, each in another block: block by block k nodes are right."""
        step = 16 + 4
        for node in range(5):
            self.flip(node, -10 - node * step)
        self.found(0, 1, 2, 3, 4)

    def test_too_many_in_one_block(self):
        for node in range(3):
            self.flip(node, -3)
        before = [self.share(node).read_bytes() for node in range(5)]
        self.assertIn("block 10 is right at 2 nodes", self.refused(3, "get", "image", self.top / "x"))
        status, result = self.command("check", "--correct")
        self.assertEqual(status, 3)
        self.assertIn("right at 2 nodes", result["images"][0]["lost"][0])
        self.assertEqual([self.share(node).read_bytes() for node in range(5)], before)

    def test_cut(self):
        whole = self.share(1).read_bytes()
        for count in (0, 1, 11, 12, 100, 181, 182, len(whole) - 1, len(whole) - 21):
            self.share(1).write_bytes(whole[:count])
            self.found(1)
        self.share(1).write_bytes(whole + b"more")
        self.found(1)

    def test_missing(self):
        self.share(2).unlink()
        self.assertEqual(self.found(2), ["it holds no share of the image"])

    def test_swapped(self):
        one, two = self.share(1).read_bytes(), self.share(2).read_bytes()
        self.share(1).write_bytes(two)
        self.share(2).write_bytes(one)
        self.assertEqual(self.found(1, 2), ["the share is that of node 2", "the share is that of node 1"])

    def test_swapped_folders(self):
        self.places[1].rename(self.top / "x")
        self.places[2].rename(self.places[1])
        (self.top / "x").rename(self.places[2])
        absent = self.right("list")["absent"]
        self.assertIn("is node 2 of the store", absent["1"])
        self.assertIn("is node 1 of the store", absent["2"])
        self.assertEqual(self.got(), self.data)

    def test_under_another_name(self):
        self.put(b"other", "other")
        shutil.copy(self.share(1, "other"), self.share(1))
        self.assertEqual(self.got(), self.data)
        _, result = self.command("check", "image")
        self.assertEqual(result["images"][0]["wrong"], {"1": "the share is of the image other"})

    def test_stale(self):
        """A share from before an update that concerned the node, put back with its right checksums."""
        old = [self.share(node).read_bytes() for node in range(5)]
        for _ in range(2):
            result = self.right("update", "image", "--at", 33, self.file(self.bytes(9)))
        self.data = self.got()
        concerned, other = result["nodes"], [node for node in range(5) if node not in result["nodes"]]
        self.share(concerned[0]).write_bytes(old[concerned[0]])
        self.assertEqual(self.found(concerned[0]), ["it holds generation 1, an older write"])
        # a node that the updates did not concern has the same share as before, and it is right
        self.assertEqual(len(concerned), 3)
        self.assertEqual([self.share(node).read_bytes() for node in other], [old[node] for node in other])

    def test_foreign(self):
        """A share of an image of the same name, of another store and of an earlier life."""
        mine, places = self.store, self.places
        self.store = self.top / "other.toml"
        self.make(5, 3, 16)
        self.put(self.bytes(500))
        foreign = self.share(3).read_bytes()
        self.store, self.places = mine, places
        self.share(3).write_bytes(foreign)
        self.assertEqual(self.found(3), ["the share is of another store"])
        earlier = self.share(3).read_bytes()
        self.right("rm", "image")
        self.data = self.bytes(500)
        self.put(self.data)
        self.share(3).write_bytes(earlier)
        self.found(3)

    def test_wrong_where_the_checksum_is_right(self):
        """A block and its checksum were both written wrong: Correct finds the node among all, and also where one is away."""
        self.forge(3)
        for node in range(5):
            # whichever k nodes are read, the image is right or the wrong node is found and left out
            with self.without(node):
                status, _ = self.command("get", "image", self.top / "x")
                if status == 0:
                    self.assertEqual((self.top / "x").read_bytes(), self.data)
        self.assertEqual(self.got(), self.data)
        (said,) = self.found(3)
        self.assertIn("is not that of the others", said)

    def test_two_wrong_where_the_checksums_are_right(self):
        self.forge(1)
        self.forge(2)
        status, result = self.command("check", "--correct")
        self.assertEqual(status, 1)
        self.assertTrue(result["images"][0]["doubts"])
        self.assertEqual(result["images"][0]["corrected"], [])
        self.assertEqual(self.command("get", "image", self.top / "x")[0], 1)

    def test_nothing_is_made_from_a_wrong_share(self):
        """A rebuild and an update find the wrong node out although its checksums are right, and go on without it."""
        self.forge(3)
        self.share(4).unlink()
        self.right("rebuild", 4)
        self.assertEqual(self.found(3)[0][:7], "block 0")
        one = self.right("update", "image", "--at", 0, self.file(b"olds"))["nodes"][0]
        self.forge(one)
        result = self.right("update", "image", "--at", 0, self.file(b"news"))
        self.data = b"news" + self.data[4:]
        self.assertIn("is not that of the others", result["absent"][str(one)])
        self.found(one)

    def test_too_many_are_wrong_to_make_anything(self):
        self.forge(1)
        self.forge(2)
        before = [self.share(node).read_bytes() for node in range(5)]
        self.assertIn("do not agree", self.refused(1, "update", "image", "--at", 0, self.file(b"news")))
        status, result = self.command("rebuild", 0)
        self.assertEqual((status, list(result["failed"])), (1, ["image"]))
        self.assertEqual([self.share(node).read_bytes() for node in range(5)], before)
        self.assertEqual(self.left_over(), [])

    def test_what_is_left_of_a_lost_image(self):
        """An image that two nodes hold: it is said to be lost, its name is taken, and `rm --force` removes what is left."""
        for node in range(3):
            self.share(node).unlink()
        self.refused(3, "get", "image", self.top / "x")
        self.refused(3, "put", "image", self.file(b"x"))
        self.refused(3, "rm", "image")
        self.assertEqual(list(self.command("check")[1]["lost"]), ["image"])
        self.assertEqual(self.command("list")[0], 3)
        self.right("rm", "--force", "image")
        self.all_right(None)
        self.put(b"x")
        self.all_right(b"x")

    def test_a_damaged_preparation(self):
        """What a node has prepared is damaged: nothing is committed from it, and a check makes the node's share anew."""
        kept = [self.share(node).read_bytes() for node in range(5)]
        result = self.right("update", "image", "--at", 0, self.file(b"news"))
        node = result["nodes"][0]
        self.share(node).write_bytes(kept[node])
        for data in (b"BALREDO1", b"BALREDO1" + bytes(20), b"nonsense", b""):
            (self.places[node] / "image.next").write_bytes(data)
            self.assertEqual(self.got()[:4], b"news")
            self.assertEqual(self.command("check")[0], 1)
        self.data = b"news" + self.data[4:]
        self.right("check", "--correct")
        self.all_right(self.data)

    def forge(self, node):
        """Changes a symbol of the first block and makes its checksum right."""
        from imagestore import share
        data = bytearray(self.share(node).read_bytes())
        start = share.unpack_header(data)
        place = share.block_place(start.record, start.name, start.lanes, 0)
        data[place] ^= 1
        data[place + 16:place + 20] = share.checksum(share.seed(0), data[place:place + 16])
        self.share(node).write_bytes(data)

    def test_a_link_in_the_folder(self):
        """A link where a share should be leads nowhere."""
        secret = self.file(b"secret", "secret")
        self.share(0).unlink()
        self.share(0).symlink_to(secret)
        self.found(0)
        self.assertEqual(secret.read_bytes(), b"secret")


class NoSymbols(StoreCase):
    """Two bytes may be no symbol where the field is a prime's: a block that holds such a pair is damaged, whatever its checksum says."""

    def setUp(self):
        super().setUp()
        self.make(6, 3, 16)
        self.data = self.bytes(300)
        self.put(self.data)

    def forge(self, node):
        """The last symbol of the first block is none, and the checksum is right."""
        from imagestore import share
        data = bytearray(self.share(node).read_bytes())
        start = share.unpack_header(data)
        place = share.block_place(start.record, start.name, start.lanes, 0)
        end = place + 2 * start.lanes
        data[end - 2:end] = b"\xff\xff"
        data[end:end + 4] = share.checksum(share.seed(0), data[place:end])
        self.share(node).write_bytes(data)

    def named(self, *nodes):
        """A check names just these nodes, and block 0 of each."""
        status, result = self.command("check")
        wrong = result["images"][0]["wrong"]
        self.assertEqual((status, sorted(map(int, wrong))), (1, sorted(nodes)), result)
        for said in wrong.values():
            self.assertIn("block 0 is damaged", said)

    def test_any_three_of_six(self):
        kept = [self.share(node).read_bytes() for node in range(6)]
        for nodes in itertools.combinations(range(6), 3):
            for node in nodes:
                self.forge(node)
            self.assertEqual(self.got(), self.data)
            self.named(*nodes)
            for node in nodes:
                self.share(node).write_bytes(kept[node])

    def test_one_wrong_and_two_away(self):
        self.forge(1)
        with self.without(0, 2):
            self.assertEqual(self.got(), self.data)

    def test_too_many(self):
        for node in range(4):
            self.forge(node)
        self.assertIn("is right at 2 nodes, and 3 are needed", self.refused(3, "get", "image", self.top / "x"))

    def test_set_right(self):
        self.forge(0)
        self.forge(5)
        self.assertEqual(self.right("check", "--correct")["images"][0]["corrected"], [0, 5])
        self.all_right(self.data)

    def test_rebuild_and_update_go_round_it(self):
        self.forge(4)
        self.share(5).unlink()
        self.right("rebuild", 5)
        self.right("update", "image", "--at", 0, self.file(b"news"))
        self.data = b"news" + self.data[4:]
        self.assertEqual(self.got(), self.data)

    def test_blocks_without_room(self):
        """Three words behind a mask do not fit two symbols: a store whose blocks hold nothing is refused."""
        places = [self.top / f"small{node}" for node in range(6)]
        status, _, said = command("init", self.top / "small.toml", "--needed", 1, "--lanes", 1, *places)
        self.assertEqual(status, 2)
        self.assertIn("holds no bytes", said)


if __name__ == "__main__":
    unittest.main()
