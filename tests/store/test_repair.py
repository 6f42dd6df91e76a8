"""Rebuilds by traces: a few bits of each symbol of the others, counted on the pipes; and k whole shares where that is less, or asked for."""
import unittest
from unittest import mock

from support import StoreCase
from test_pipes import CountedCase

import balanced
from imagestore import arithmetic, repair, share


class Repairs(StoreCase):
    def setUp(self):
        super().setUp()
        self.make(51, 30, 64)
        self.data = self.bytes(30 * 64 * 10 + 500)
        self.put(self.data)
        self.whole = 30 * sum(self.lanes_of(block) + 4 for block in range(11))

    def lanes_of(self, block):
        return 64 if block < 10 else 17

    def moved(self, senders, bits=4):
        """What so many nodes send of all blocks: a byte for each, and their bits."""
        return senders * sum(1 + bits * ((self.lanes_of(block) + 7) // 8) for block in range(11))

    def rebuilt(self, node, *words):
        self.share(node).unlink(missing_ok=True)
        result = self.right("rebuild", node, *words)
        (one,) = result["rebuilt"]
        self.all_right(self.data)
        return one, result

    def test_bits_of_the_others(self):
        """51 nodes, 30 needed: 4 bits of 45 nodes, for 5 may be missing, where 30 whole shares would do: 0.75 of them."""
        for node in (0, 17, 50):
            one, result = self.rebuilt(node)
            self.assertEqual((one["read"], one["whole"]), (self.moved(45), self.whole))
            self.assertLess(one["read"], 0.82 * one["whole"])
            sent = [place for place, seen in result["traffic"].items() if seen["shares_received"]]
            self.assertTrue(len(sent) >= 45 and str(node) not in sent)

    def test_whole_shares_where_asked_for(self):
        one, _ = self.rebuilt(20, "--whole")
        self.assertEqual(one["read"], self.whole)

    def test_missing_nodes(self):
        """Up to 5 nodes more may be away; with 6 k whole shares are read."""
        for away in (1, 4, 5, 6, 20):
            nodes = self.random.sample(range(51), away + 1)
            with self.without(*nodes[1:]):
                self.share(nodes[0]).unlink()
                (one,) = self.right("rebuild", nodes[0])["rebuilt"]
                self.assertEqual(one["read"], self.moved(45) if away <= 5 else self.whole)
            self.all_right(self.data)

    def test_damaged_senders(self):
        """A node whose block is damaged does not send, and is named; with more of them than may be missing whole shares are read."""
        for count in (1, 3, 5, 8):
            nodes = self.random.sample(range(1, 51), count)
            for node in nodes:
                self.flip(node, -10 - self.random.randrange(5) * 68)
            self.share(0).unlink()
            result = self.right("rebuild", 0)
            found = set(map(int, result["wrong"]))
            self.assertLessEqual(found, set(nodes))
            self.assertEqual(sorted(map(int, self.command("check")[1]["images"][0]["wrong"])), sorted(nodes))
            self.right("check", "--correct")
            self.all_right(self.data)

    def test_nodes_that_are_left_out_take_turns(self):
        """Batch by batch other five of 50 are left out: of 12 batches each node sends 10 or 11."""
        self.store = self.top / "large.toml"
        self.make(51, 30, 4096)
        self.put(bytes(30 * 4096 * 8 * 12))
        self.share(0).unlink()
        result = self.right("rebuild", 0)
        batch = 8 * (1 + 4 * 512)
        reads = [result["traffic"][str(node)]["shares_received"] for node in range(1, 51)]
        self.assertEqual(set(reads), {10 * batch, 11 * batch})
        self.assertEqual(reads.count(11 * batch), 40)

    def test_a_wrong_share_with_right_checksums(self):
        """What is made from it is wrong too: `check` finds both, and sets them right. From whole shares nothing wrong is made."""
        data = bytearray(self.share(9).read_bytes())
        head = share.unpack_header(data)
        place = share.block_place(head.record, head.name, head.lanes, 2)
        data[place + 5] ^= 1
        data[place + 64:place + 68] = share.checksum(share.seed(2), data[place:place + 64])
        kept = self.share(0).read_bytes()
        for words in ([], ["--whole"]):
            self.share(9).write_bytes(data)
            self.share(0).unlink()
            self.right("rebuild", 0, *words)
            wrong = sorted(map(int, self.command("check")[1]["images"][0]["wrong"]))
            self.assertIn(wrong, ([9], [0, 9]))
            self.assertTrue(9 in wrong and (wrong == [9]) == (self.share(0).read_bytes() == kept))
            if words:
                self.assertEqual(wrong, [9])
            self.right("check", "--correct")
            self.all_right(self.data)

    def test_nodes_without_the_library(self):
        """They keep shares and cannot compute: they are left out, and where they are too many, whole shares are read."""
        real = arithmetic.plan_of

        def missing(record):
            raise ImportError("there is no libbalanced.so.1")

        self.share(3).unlink()
        with mock.patch.object(arithmetic, "plan_of", missing):
            status, result = self.command("rebuild", 3)
        self.assertEqual(status, 3, result)  # every node of this process is without it
        self.assertIs(arithmetic.plan_of, real)
        self.right("rebuild", 3, "--whole")
        self.all_right(self.data)

    def test_when(self):
        """Where bits of the others are less than k whole shares, and nowhere else."""
        for n, k, wanted in ((17, 1, None), (51, 1, None), (51, 26, 9), (51, 30, 5), (51, 35, 0), (51, 36, None), (15, 1, None), (85, 30, 39),
                             (85, 21, None), (255, 120, 7), (255, 51, 76), (255, 10, None), (255, 239, 0), (255, 240, None), (254, 120, None)):
            plan = balanced.Plan(balanced.choose(n, k))
            self.assertEqual(repair.spare(plan, 4096, 0), wanted, (n, k))


class Traffic(CountedCase):
    """The bytes on the pipes are those that the command prints."""

    def test_traffic(self):
        StoreCase.make(self, 51, 30, 64)
        self.put(self.bytes(30 * 64 * 3))
        self.over_pipes()
        self.share(7).unlink()
        result = self.counted("rebuild", 7)
        (one,) = result["rebuilt"]
        # a byte and 4 planes of 8 bytes for each of 3 blocks, from 45 nodes
        self.assertEqual((one["read"], one["whole"]), (45 * 3 * 33, 30 * 3 * 68))
        self.assertEqual(sum(seen["shares_received"] for seen in result["traffic"].values()), one["read"])
        self.assertEqual({seen["shares_received"] for seen in result["traffic"].values()}, {0, 99})
        self.assertEqual(sum(seen["shares_sent"] for seen in result["traffic"].values()), 3 * 68)


if __name__ == "__main__":
    unittest.main()
