"""Nodes that are lost in the middle of a command, while the command goes on: one at each change of its disk, and as many as may be lost
after any number of bytes. The command does what it was asked to; a check sets the nodes right when they are back."""
import unittest
from unittest import mock

from test_pipes import ServedCase

import pipes
from imagestore import changes


class LostNodeCase(ServedCase):
    """`data` is what the image should be."""

    def back(self, data):
        """The image can be got; the nodes are back, and a check sets right what they missed."""
        if data is not None:
            self.assertEqual(self.got(), data)
        self.last()
        self.right("check", "--correct")
        self.all_right(data)

    def fresh(self, data):
        """The image is there with this content, or is not there."""
        if self.right("list")["images"]:
            self.right("rm", "image")
        if data is not None:
            self.put(data)


class OneNode(LostNodeCase):
    """Node 1 ends before each change of its disk: everything before is kept, or what was not synced may be lost."""

    def setUp(self):
        super().setUp()
        self.make()
        self.old, self.new = self.bytes(70), self.bytes(70)

    def every_stop(self, before, after, *words, status=0):
        for mode in ("stop", "torn", "power"):
            stop = 0
            while True:
                stop += 1
                self.fresh(before)
                pipes.Child.stops = {str(self.places[1]): (stop, mode)}
                with self.subTest(stop=stop, mode=mode):
                    seen, result = self.command(*words)
                    self.assertIn(seen, (0, status), result)
                    self.back(after)
                if seen == 0 and "1" not in result["absent"]:
                    break
            self.assertGreater(stop, 4, "the node makes few changes: is its disk followed?")

    def test_put(self):
        self.every_stop(None, self.new, "put", "image", self.file(self.new, "new"))

    def test_update_by_differences(self):
        self.new = self.old[:20] + b"thirty bytes that are new now." + self.old[50:]
        self.every_stop(self.old, self.new, "update", "image", "--at", "20", self.file(self.new[20:50], "part"))

    def test_update_by_new_symbols(self):
        with mock.patch.object(changes, "FEW_ROWS", 0):
            self.every_stop(self.old, self.new, "update", "image", self.file(self.new, "new"))

    def test_update_to_another_length(self):
        self.new = self.bytes(101)
        self.every_stop(self.old, self.new, "update", "image", self.file(self.new, "new"))

    def test_rm(self):
        self.every_stop(self.old, None, "rm", "image")

    def test_rebuild(self):
        """The node that is made anew ends in the middle: the command says so, and the image is as before."""
        self.every_stop(self.old, self.old, "rebuild", "1", status=1)


class ManyNodes(LostNodeCase):
    """n-k nodes, others each time, last for some bytes only."""

    def lasting(self):
        """Picks the nodes that will be lost, and after how many bytes."""
        nodes = self.random.sample(range(self.n), self.n - self.k)
        pipes.Child.budgets = {str(self.places[node]): self.random.randrange(1800) for node in nodes}
        return nodes

    def test_every_command(self):
        self.make(6, 3, 16)
        for turn in range(12):
            data = bytearray(self.bytes(300))
            self.fresh(None)
            with self.subTest(turn=turn, nodes=self.lasting()):
                self.put(data)
                self.back(data)
                self.lasting()
                self.assertEqual(self.got(), data)
                self.last()
                data[100:140] = self.bytes(40)
                self.lasting()
                self.right("update", "image", "--at", 100, self.file(data[100:140]))
                self.back(data)
                data[:] = self.bytes(300)
                self.lasting()
                self.right("update", "image", self.file(data))
                self.back(data)
                self.lasting()
                status, result = self.command("check")
                self.assertEqual((status == 1, result["lost"], result["failed"]), (bool(result["absent"]), {}, {}))
                self.lasting()
                self.right("list")
                self.back(data)
                self.lasting()
                self.right("rm", "image")
                self.back(None)

    def test_rebuild_and_check_that_sets_right(self):
        """The node that is written stays, and n-k-1 others are lost."""
        self.make(6, 3, 16)
        data = self.bytes(300)
        self.put(data)
        for words in (["rebuild", 2], ["check", "--correct"]) * 8:
            self.share(2).unlink()
            pipes.Child.budgets = {str(self.places[node]): self.random.randrange(1800) for node in self.random.sample([0, 1, 3, 4, 5], 2)}
            with self.subTest(words=words, budgets=pipes.Child.budgets):
                status, result = self.command(*words)
                self.assertIn(status, (0, 1), result)
                self.assertTrue(self.share(2).exists())
                self.back(data)


if __name__ == "__main__":
    unittest.main()
