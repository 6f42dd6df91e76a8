"""Nodes that are lost: as many as the code allows, in every command; one more is refused with status 3, and changes nothing."""
import unittest

from support import StoreCase, command


class Lost(StoreCase):
    def setUp(self):
        super().setUp()
        self.make(5, 3, 8)
        self.data = self.bytes(100)
        self.put(self.data)

    def lost(self, count):
        return self.random.sample(range(self.n), count)

    def brought_back(self, data):
        """After the nodes have come back, a check sets them right."""
        self.right("check", "--correct")
        self.all_right(data)

    def test_get_list_nodes_and_check(self):
        for _ in range(5):
            lost = self.lost(2)
            with self.without(*lost):
                self.assertEqual(self.got(), self.data)
                self.assertEqual(sorted(map(int, self.right("list")["absent"])), sorted(lost))
                self.assertEqual([one["node"] for one in self.right("nodes")["nodes"] if one["state"] == "away"], sorted(lost))
                status, result = self.command("check")
                self.assertEqual((status, sorted(map(int, result["absent"]))), (1, sorted(lost)))
        self.all_right(self.data)

    def test_put(self):
        lost = self.lost(2)
        with self.without(*lost):
            result = self.put(b"another image", "other")
            self.assertEqual(sorted(map(int, result["absent"])), sorted(lost))
            self.assertEqual(self.got("other"), b"another image")
        self.brought_back_with_two()

    def brought_back_with_two(self):
        self.right("check", "--correct")
        self.assertEqual([one["found"] for one in self.right("check")["images"]], [{}, {}])
        self.assertEqual((self.got(), self.got("other")), (self.data, b"another image"))

    def test_update(self):
        for place in range(0, 96, 13):
            lost = self.lost(2)
            with self.without(*lost):
                self.right("update", "image", "--at", place, self.file(b"news"))
                self.data = self.data[:place] + b"news" + self.data[place + 4:]
                self.assertEqual(self.got(), self.data)
            # nodes that were away are stale where the update concerned them, and nobody takes their old content for new
            self.assertEqual(self.got(), self.data)
            with self.without(*self.lost(1)):
                status, _ = self.command("get", "image", self.top / "out")
                self.assertIn(status, (0, 3))
                if status == 0:
                    self.assertEqual((self.top / "out").read_bytes(), self.data)
            self.brought_back(self.data)

    def test_update_to_another_length_and_rm(self):
        lost = self.lost(2)
        with self.without(*lost):
            self.absent = self.right("update", "image", self.file(b"short"))["absent"]
            _, said, _ = command("--store", self.store, "update", "image", self.file(b"shorter"))
            self.assertIn("image: another length, 7 bytes: written anew at 3 nodes, generation 3\n", said)
            self.assertEqual(said.count("  without node "), 2)
            self.right("update", "image", self.file(b"short"))
            self.assertEqual(self.got(), b"short")
        self.assertEqual(sorted(self.absent), sorted(map(str, lost)))
        self.brought_back(b"short")
        with self.without(*self.lost(2)):
            self.right("rm", "image")
            self.assertEqual(self.right("list")["images"], [])
        # the nodes that were away still have shares, and these bring nothing back
        self.assertEqual(self.right("list")["images"], [])
        self.right("check", "--correct")
        self.all_right(None)
        self.assertEqual([path for place in self.places for path in place.glob("*.share")], [])

    def test_rebuild(self):
        lost = self.lost(2)
        target = lost[0]
        self.share(target).unlink()
        with self.without(lost[1]):
            self.right("rebuild", target)
        self.all_right(self.data)

    def test_a_whole_new_file_of_the_same_length(self):
        for _ in range(4):
            with self.without(*self.lost(2)):
                self.data = self.bytes(100)
                self.right("update", "image", self.file(self.data))
                self.assertEqual(self.got(), self.data)
            self.brought_back(self.data)

    def test_check_that_sets_right(self):
        """One node is away and another is damaged: this one is set right, and a check then ends with 1 for the first alone."""
        for _ in range(4):
            away, wrong = self.lost(2)
            self.flip(wrong, -10)
            with self.without(away):
                status, result = self.command("check", "--correct")
                self.assertEqual((status, result["images"][0]["corrected"], result["images"][0]["wrong"]), (1, [wrong], {}))
            self.all_right(self.data)

    def test_leave_and_return(self):
        """With n-k nodes away, and with more: the roster is kept beside the store, and no node is asked."""
        for count in (2, 3, 5):
            with self.without(*self.lost(count)):
                self.right("leave", 4)
                self.right("return", 4)
        self.all_right(self.data)

    def test_one_too_many(self):
        before = [self.share(node).read_bytes() for node in range(5)]
        for words in (["get", "image", self.top / "x"], ["put", "other", self.file(b"x")], ["update", "image", "--at", 0, self.file(b"x")],
                      ["update", "image", self.file(b"xy")], ["rm", "image"], ["check"], ["list"], ["rebuild", 4]):
            with self.without(0, 1, 2):
                self.assertIn("needed", self.refused(3, *words))
        self.assertEqual([self.share(node).read_bytes() for node in range(5)], before)
        self.all_right(self.data)

    def test_what_is_said_of_nodes_that_have_left(self):
        """Where nodes have left, and the others are too few, each of them is named."""
        for node in (0, 2, 3):
            self.right("leave", node)
        self.assertEqual(self.refused(3, "list"), "list: 2 nodes are here, and 3 are needed\n"
                         "  node 0: it has left\n  node 2: it has left\n  node 3: it has left")
        _, said, _ = command("--store", self.store, "leave", 4)
        self.assertIn("these are too few", said)

    def test_what_is_said_of_a_lost_image(self):
        for node in range(3):
            self.share(node).unlink()
        for words, line in ((["list"], "image: fewer than 3 nodes hold a share of one write\n"),
                            (["check"], "image: lost: fewer than 3 nodes hold a share of one write\n"),
                            (["rebuild", 0], "image: lost: fewer than 3 nodes hold a share of one write\n")):
            status, said, _ = command("--store", self.store, *words)
            self.assertEqual((status, [one + "\n" for one in said.splitlines() if one.startswith("image")]), (3, [line]))
        self.right("rm", "--force", "image")
        _, said, _ = command("--store", self.store, "rebuild", 0, 1)
        self.assertTrue(said.startswith("nodes 0 1: of the store; there is no image to be made anew\n"), said)

    def test_all_at_once_and_nodes(self):
        with self.without(*range(5)):
            self.refused(3, "list")
            self.assertEqual({one["state"] for one in self.right("nodes")["nodes"]}, {"away"})


class Events(StoreCase):
    def test_a_node_leaves_and_returns(self):
        self.make(5, 3, 8)
        self.put(b"first", "first")
        self.assertEqual(self.right("leave", 2)["present"], [0, 1, 3, 4])
        self.assertIn("left already", self.refused(1, "leave", 2))
        self.put(b"second", "second")
        self.assertFalse(self.share(2, "second").exists())
        self.assertEqual(self.right("nodes")["nodes"][2]["state"], "left")
        self.assertEqual(self.command("check")[0], 0)  # a node that has left is not missed
        self.right("rebuild", 2)
        self.assertTrue(self.share(2, "second").exists())
        self.assertEqual(self.right("return", 2)["present"], [0, 1, 2, 3, 4])
        self.assertIn("has not left", self.refused(1, "return", 2))
        self.assertIn("no node 5", self.refused(2, "leave", 5))
        self.all_right()

    def test_a_new_disk(self):
        """A folder that is empty, as where a disk is not mounted, is no node until it is rebuilt."""
        self.make(5, 3, 8)
        data = self.bytes(200)
        self.put(data)
        for path in list(self.places[1].iterdir()):
            path.unlink()
        result = self.put(b"x", "other")
        self.assertIn("is its disk there?", result["absent"]["1"])
        self.assertEqual(list(self.places[1].iterdir()), [])
        self.places[1].rmdir()
        self.right("rebuild", 1)
        self.all_right()

    def test_jobs_are_fair(self):
        """The nodes that a rebuild reads take turns: over all its jobs no node is read more than once oftener than another."""
        self.make(5, 2, 4096)
        self.put(self.bytes(24 * 1024 * 1024))
        self.right("leave", 4)
        self.share(4).unlink()
        result = self.right("rebuild", 4)
        reads = [result["traffic"][str(node)]["shares_received"] for node in range(4)]
        self.assertGreater(min(reads), 0)
        self.assertLessEqual(max(reads) - min(reads), (1 << 19) + 4096, "a job is a batch: 1 MB of the image, half of it from each node")
        self.assertEqual(sum(reads), 2 * result["traffic"]["4"]["shares_sent"])


if __name__ == "__main__":
    unittest.main()
